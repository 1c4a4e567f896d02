//! What `--help` and `--version` print.

use crate::calls::{Call, CALLS};

pub const VERSION: &str = concat!("zolkirta ", env!("CARGO_PKG_VERSION"), "\n");

/// The help of a call, or of the tool.
pub fn text(call: Option<&Call>) -> String {
    match call {
        Some(call) => format!(
            "{}\n\n{}.\n{}\n\nzolkirta --help tells of options, status and refusals.\n",
            call.usage(),
            capitalized(call.purpose),
            call.more
        ),
        None => {
            let calls: String = CALLS.iter().map(|call| format!("  {}\n      {}\n", call.usage(), call.purpose)).collect();
            format!("Zolkirta judges certificates of bisimulation, weak and strong, for probabilistic\nautomata.\n\n{calls}\n{GENERAL}")
        }
    }
}

fn capitalized(words: &str) -> String {
    words[..1].to_uppercase() + &words[1..]
}

const GENERAL: &str = "\
zolkirta CALL --help tells more of a call. Files go by their names; - stands for
standard input, for one file of a call.

Options, in any place:
  -o OUT, --output OUT  the file to write: whole, or not at all. A refusal
                        leaves an older file as it was. - stands for standard
                        output; the verdict then goes to standard error.
                        rewrite, rewrite-costs and largest write two files,
                        both or none, whose names follow one -o behind the call.
  --json                the verdict as one JSON object on one line
  -q, --quiet           no verdict, only the status and errors
  -h, --help            this text, or that of a call
  -V, --version         the version
  --                    ends the options

Status:
  0                     accepted; alike: yes
  1                     refused; alike: no
  2                     not judged: words that make no call, or a file that
                        cannot be read or written; standard error says which

A refusal is a sentence: its number and what that means; the file at fault, 1
for the (first) model or the text, 2 for the certificate, 3 for the second
model; as place the byte of it where the record or line at fault begins; for 16,
20 and 21 a state, and as remainder by how much the left side of its condition
or equation is off:
  16                    how far d0 times A is above what it must be below
  20                    how many arrive that are too many, or below 0 too few;
                        at the defender of a strong certificate also how far D
                        is above the sum of k times d
  21                    how many d0 times the w onto it is too many, or too few
A second line has the file's name, and its bytes from there on, or the line of a
text, by its number from 1 on; a third one says which side the remainder is of.

Fields of the JSON object, each there always, null where it does not apply; with
status 2 there is no object:
  call                  its name
  number, sentence      0, or the refusal's number; the answer's sentence, or
                        the one that the call sentence was asked for
  file, name            the file at fault, 1 (first) model or text,
                        2 certificate, 3 second model; its name
  place                 the byte of it where the record or line at fault begins
  state, remainder      for 16, 20 and 21: the state; left side less right side
  blocks                the block of each state, from state 0 on
  written, output       how many bytes were written; the name of their file; of
                        two files the model's
  states, transitions   how many the model written has
  names                 the names of its actions in the text, from action 1 on
  sheet                 the sheet, where no -o is given
  run                   the transitions fetched, each with number, source,
                        action (0 is internal), denominator, and targets, each
                        with state and weight
  alike                 true for yes, false for no
  certificate_written,  how many bytes of the certificate were written; the
  certificate_output    name of its file
  right_states          of a composition, how many states RIGHT has: state s of
                        LEFT with e of RIGHT is s * right_states + e
  made_internal         how many transitions were made internal by hide
  flows                 how many flow records the certificate of largest has
";
