//! The calls: what each is named, what it takes, and what it is for.

use crate::answer::{alike, compose, fetch, hide, join, judge, judge_costs, judge_strong, largest, read_prism, reduce, rewrite, rewrite_costs};
use crate::answer::{sentence, sheet, Answer};
use std::ops::RangeInclusive;
use zolkirta::File;

/// A file that a call takes: the word for it in usage lines, and which file of the library it is.
pub struct Role {
    pub word: &'static str,
    pub file: File,
}

const MODEL: Role = Role { word: "MODEL", file: File::Model };
const CERTIFICATE: Role = Role { word: "CERTIFICATE", file: File::Certificate };
const FIRST: Role = Role { word: "FIRST", file: File::Model };
const SECOND: Role = Role { word: "SECOND", file: File::SecondModel };
const LEFT: Role = Role { word: "LEFT", file: File::Model };
const RIGHT: Role = Role { word: "RIGHT", file: File::SecondModel };
const TEXT: Role = Role { word: "TEXT", file: File::Text };

/// A number that a call takes: the word for it in usage lines, what it is, and which it may be.
pub struct Number {
    pub word: &'static str,
    pub said: &'static str,
    pub range: RangeInclusive<i128>,
}

/// A state of a model, or how many of a thing it has. However large it is, the library is asked: no model has one above 32 bits.
const fn of_model(word: &'static str, said: &'static str) -> Number {
    Number { word, said, range: 0..=i128::MAX }
}

const fn state(word: &'static str) -> Number {
    of_model(word, "state's number")
}

const ACTION: Number = Number { word: "[ACTION ...]", said: "action's number", range: 0..=u8::MAX as i128 };

/// What an answer tells, each in its width.
const TOLD: [Number; 5] = [
    Number { word: "NUMBER", said: "answer's number", range: 0..=u32::MAX as i128 },
    Number { word: "FILE", said: "file's number", range: 0..=u32::MAX as i128 },
    Number { word: "PLACE", said: "place", range: 0..=usize::MAX as i128 },
    Number { word: "STATE", said: "state's number", range: 0..=u32::MAX as i128 },
    Number { word: "REMAINDER", said: "remainder", range: i64::MIN as i128..=i64::MAX as i128 },
];

/// The numbers that a call takes behind its files.
pub enum Numbers {
    /// These, one each.
    Each(&'static [Number]),
    /// As many as are named.
    Any(&'static Number),
}

const NONE: Numbers = Numbers::Each(&[]);

impl Numbers {
    /// Their kinds.
    pub fn kinds(&self) -> &'static [Number] {
        match self {
            Numbers::Each(numbers) => numbers,
            Numbers::Any(number) => std::slice::from_ref(number),
        }
    }
}

/// Whether a call writes a file.
pub enum Writes {
    Never,
    WhereNamed,
    Always,
    /// A model and a certificate, always.
    Pair,
}

impl Writes {
    /// The words for the files, behind one -o.
    pub fn words(&self) -> &'static [&'static str] {
        match self {
            Writes::Never => &[],
            Writes::WhereNamed | Writes::Always => &["OUT"],
            Writes::Pair => &["MODEL_OUT", "CERTIFICATE_OUT"],
        }
    }
}

pub struct Call {
    pub name: &'static str,
    /// The files, in the order of their words; the numbers follow.
    pub files: &'static [Role],
    pub numbers: Numbers,
    pub writes: Writes,
    /// What it is for, in a line.
    pub purpose: &'static str,
    /// What else its help says.
    pub more: &'static str,
    make: fn(&[&[u8]], &[i128]) -> Answer,
}

impl Call {
    /// Answers for the bytes of its files and for its numbers, as many of both as it takes.
    pub fn answer(&self, files: &[&[u8]], numbers: &[i128]) -> Answer {
        (self.make)(files, numbers)
    }

    pub fn usage(&self) -> String {
        let files = self.files.iter().map(|role| role.word);
        let numbers = self.numbers.kinds().iter().map(|number| number.word);
        let words: Vec<&str> = ["zolkirta", self.name].into_iter().chain(files).chain(numbers).collect();
        let outputs = self.writes.words().join(" ");
        let output = match self.writes {
            Writes::Never => String::new(),
            Writes::WhereNamed => format!(" [-o {outputs}]"),
            Writes::Always | Writes::Pair => format!(" -o {outputs}"),
        };
        words.join(" ") + &output
    }
}

pub const CALLS: [Call; 15] = [
    Call {
        name: "judge",
        files: &[MODEL, CERTIFICATE],
        numbers: NONE,
        writes: Writes::Never,
        purpose: "whether a certificate is accepted, and the blocks of bisimilar states",
        more: "After the first line each block has a line with its states.",
        make: judge,
    },
    Call {
        name: "judge-costs",
        files: &[MODEL, CERTIFICATE],
        numbers: NONE,
        writes: Writes::Never,
        purpose: "what judge does, for a model whose transitions have costs",
        more: "After the first line each block has a line with its states. Every other call\n\
               but rewrite-costs refuses a cost model with 9.",
        make: judge_costs,
    },
    Call {
        name: "judge-strong",
        files: &[MODEL, CERTIFICATE],
        numbers: NONE,
        writes: Writes::Never,
        purpose: "what judge does, by strong bisimulation: no internal step is skipped",
        more: "After the first line each block has a line with its states. Each lies inside a\n\
               block that judge gives for the same model. CERTIFICATE is a strong one, which\n\
               every other call refuses with 12; no merged model is written for it.",
        make: judge_strong,
    },
    Call {
        name: "reduce",
        files: &[MODEL, CERTIFICATE],
        numbers: NONE,
        writes: Writes::Always,
        purpose: "writes the merged model: one state for each block",
        more: "The merged state of a block has the block's number, and behaves as its states.\n\
               judge says which they are.",
        make: reduce,
    },
    Call {
        name: "sheet",
        files: &[MODEL, CERTIFICATE],
        numbers: NONE,
        writes: Writes::WhereNamed,
        purpose: "writes the blocks as a sheet for paper",
        more: "Without -o the sheet follows the first line. Its columns have four characters\n\
               each: the block's number, its size, and its states, 16 to a line.",
        make: sheet,
    },
    Call {
        name: "join",
        files: &[FIRST, SECOND],
        numbers: NONE,
        writes: Writes::Always,
        purpose: "writes two models as one",
        more: "The states of SECOND follow those of FIRST, their numbers raised by FIRST's\n\
               state count. A solver is run on the joined model, and alike takes the\n\
               certificate that it writes.",
        make: join,
    },
    Call {
        name: "fetch",
        files: &[MODEL],
        numbers: Numbers::Each(&[state("STATE")]),
        writes: Writes::Never,
        purpose: "the transitions that leave a state",
        more: "After the first line each transition has a line: its number in the model, its\n\
               action, and each state that it leads to, with the probability.",
        make: fetch,
    },
    Call {
        name: "alike",
        files: &[FIRST, SECOND, CERTIFICATE],
        numbers: Numbers::Each(&[state("S"), state("T")]),
        writes: Writes::Never,
        purpose: "whether state S of FIRST behaves as state T of SECOND: yes or no",
        more: "Both states go by the numbers of their own models. CERTIFICATE is one for the\n\
               joined model, which join writes for solvers; alike joins the two itself. Where\n\
               it is refused, nothing is said of the states: neither yes nor no.",
        make: alike,
    },
    Call {
        name: "read-prism",
        files: &[TEXT],
        numbers: NONE,
        writes: Writes::Always,
        purpose: "writes the model of PRISM's transition file of a decision process",
        more: "TEXT is what prism writes with -exporttrans. Each choice becomes a transition;\n\
               one without a name is internal, and the lines after the first say which\n\
               name has which action. Labels and rewards of the PRISM model stand in other\n\
               files and are not read, so states that differ only there may be merged.",
        make: read_prism,
    },
    Call {
        name: "rewrite",
        files: &[MODEL, CERTIFICATE],
        numbers: NONE,
        writes: Writes::Pair,
        purpose: "writes a stored pair in lowest terms, as every other call wants it",
        more: "A transition whose weights have a common divisor above 1 is refused with 34\n\
               since version 0.10.0. rewrite judges such a pair without 34, divides weights\n\
               and d, and multiplies each k of the flows to match: the files written have\n\
               their old lengths, and are accepted with the same blocks. Both are written,\n\
               or none.",
        make: rewrite,
    },
    Call {
        name: "rewrite-costs",
        files: &[MODEL, CERTIFICATE],
        numbers: NONE,
        writes: Writes::Pair,
        purpose: "what rewrite does, for a model whose transitions have costs",
        more: "Costs and the prices of costs stay as they are. Both files are written, or none.",
        make: rewrite_costs,
    },
    Call {
        name: "compose",
        files: &[LEFT, RIGHT],
        numbers: NONE,
        writes: Writes::Always,
        purpose: "writes two models that work side by side, their parallel composition",
        more: "Actions from 1 on that are below the action counts of both models are done\n\
               together, whether a transition has them or not; every other move is made by\n\
               one side alone. Lines after the first say which actions these are, and which\n\
               number and label a state of LEFT with a state of RIGHT has. A count that is\n\
               higher than a model needs makes it share actions that it never does, and then\n\
               the other side never does them either.",
        make: compose,
    },
    Call {
        name: "hide",
        files: &[MODEL],
        numbers: Numbers::Any(&ACTION),
        writes: Writes::Always,
        purpose: "writes a model with some of its actions made internal",
        more: "An ACTION is a number from 0 to 255. Their order does not matter; where none is\n\
               named the model stays as it is, and so it does for 0, which is internal already,\n\
               and for actions that no transition has. The lines after the first say for each\n\
               how many transitions were made internal. All other actions keep their numbers.",
        make: hide,
    },
    Call {
        name: "sentence",
        files: &[],
        numbers: Numbers::Each(&TOLD),
        writes: Writes::Never,
        purpose: "the English sentence of an answer, as a refusal has it",
        more: "For support staff who are read an answer: its number, file, place, state and\n\
               remainder, of which the last may be below 0. No two answers have the same\n\
               sentence.",
        make: sentence,
    },
    Call {
        name: "largest",
        files: &[],
        numbers: Numbers::Each(&[of_model("STATES", "number of states"), of_model("TRANSITIONS", "number of transitions")]),
        writes: Writes::Pair,
        purpose: "writes a pair with as many flow records as any of its size can have",
        more: "For hosts that set space aside: no accepted certificate without costs for a\n\
               model of so many STATES and TRANSITIONS has more flow records. Those of this\n\
               one have 16 bytes each; others may be longer. Both files are written, or none.",
        make: largest,
    },
];
