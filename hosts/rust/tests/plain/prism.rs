//! K9's reading of PRISM's transition files, written from its words.

use super::{append, fault, head_and_labels, refused, write, Answer, Fault, Limits, Terms, ACTIONS, TRANSITIONS};

const LINE: u32 = 31;
const SUM: u32 = 32;
const BUFFER: u32 = 33;

/// Probabilities are counted in ten thousandths.
const WHOLE: u64 = 10_000;

struct Head {
    states: usize,
    choices: usize,
    transitions: usize,
}

impl Head {
    fn keeps(&self, limits: &Limits) -> bool {
        (1..=limits.states).contains(&self.states) && self.choices <= TRANSITIONS && self.transitions <= limits.entries
    }
}

/// A line after the head.
struct Line<'a> {
    source: usize,
    choice: usize,
    target: usize,
    probability: u64,
    name: Option<&'a [u8]>,
}

struct Choice<'a> {
    /// Where its first line begins.
    place: usize,
    source: usize,
    number: usize,
    /// Source and number, each followed by a space.
    prefix: String,
    name: Option<&'a [u8]>,
    /// Targets and probabilities.
    entries: Vec<(usize, u64)>,
}

impl<'a> Choice<'a> {
    fn new(place: usize, line: &Line<'a>) -> Choice<'a> {
        let prefix = format!("{} {} ", line.source, line.choice);
        Choice { place, source: line.source, number: line.choice, prefix, name: line.name, entries: Vec::new() }
    }

    /// Whether a line goes on with it.
    fn takes(&self, line: &Line) -> bool {
        let ascends = self.entries.last().is_some_and(|&(target, _)| target < line.target);
        (self.source, self.number, self.name) == (line.source, line.choice, line.name) && ascends
    }

    /// Whether a line may be the first one of the next choice.
    fn precedes(&self, line: &Line) -> bool {
        let next = if line.source == self.source { self.number + 1 } else { 0 };
        line.source >= self.source && line.choice == next
    }

    /// Refusal 32.
    fn judge(&self) -> Result<(), Fault> {
        match self.entries.iter().map(|entry| entry.1).sum() {
            WHOLE => Ok(()),
            _ => fault(SUM, self.place),
        }
    }
}

/// A number without leading zeros; one above 64 bits is the highest of these, which passes every limit.
fn number(field: &[u8]) -> Option<usize> {
    let digit = |number: usize, digit: &u8| number.saturating_mul(10).saturating_add(usize::from(digit - b'0'));
    match field {
        [] | [b'0', _, ..] => None,
        _ => field.iter().all(u8::is_ascii_digit).then(|| field.iter().fold(0, digit)),
    }
}

fn probability(field: &[u8]) -> Option<u64> {
    match field {
        b"1" => Some(WHOLE),
        [b'0', b'.', digits @ ..] if (1..=4).contains(&digits.len()) && digits.iter().all(u8::is_ascii_digit) => {
            let places = [1000, 100, 10, 1];
            let parts = digits.iter().zip(places).map(|(digit, place)| u64::from(digit - b'0') * place).sum();
            (parts > 0).then_some(parts)
        }
        _ => None,
    }
}

fn fields(line: &[u8]) -> impl Iterator<Item = &[u8]> {
    line.split(|&byte| byte == b' ')
}

fn head(line: &[u8]) -> Option<Head> {
    let mut fields = fields(line);
    let mut next = || number(fields.next()?);
    let head = Head { states: next()?, choices: next()?, transitions: next()? };
    fields.next().is_none().then_some(head)
}

fn line(line: &[u8]) -> Option<Line<'_>> {
    let mut fields = fields(line);
    let mut next = || number(fields.next()?);
    let (source, choice, target) = (next()?, next()?, next()?);
    let (probability, name) = (probability(fields.next()?)?, fields.next());
    let named = name.is_none_or(|name| !name.is_empty() && name.iter().all(|byte| (0x21..=0x7e).contains(byte)));
    (named && fields.next().is_none()).then_some(Line { source, choice, target, probability, name })
}

/// The bytes before the first newline.
fn ended(text: &[u8]) -> Option<&[u8]> {
    Some(&text[..text.iter().position(|&byte| byte == b'\n')?])
}

/// What has been read of a text.
struct Read<'a, 'b> {
    limits: &'b Limits,
    states: usize,
    lines: usize,
    choices: Vec<Choice<'a>>,
    names: Vec<&'a [u8]>,
}

impl<'a> Read<'a, '_> {
    /// Takes a line that begins at a place, unless it breaks a rule or a limit.
    fn take(&mut self, place: usize, line: Line<'a>) -> Option<()> {
        self.lines += 1;
        if line.source >= self.states || line.target >= self.states || self.lines > self.limits.entries {
            return None;
        }
        let last = self.choices.last();
        if !last.is_some_and(|last| last.takes(&line)) {
            if !last.map_or(line.choice == 0, |last| last.precedes(&line)) || self.choices.len() == TRANSITIONS {
                return None;
            }
            self.see(line.name)?;
            self.choices.push(Choice::new(place, &line));
        }
        self.choices.last_mut()?.entries.push((line.target, line.probability));
        Some(())
    }

    /// Keeps a name at first sight, unless there are too many: action 0 has none.
    fn see(&mut self, name: Option<&'a [u8]>) -> Option<()> {
        let new = name.filter(|name| !self.names.contains(name));
        self.names.extend(new);
        (self.names.len() < usize::from(ACTIONS)).then_some(())
    }

    fn action(&self, choice: &Choice) -> u8 {
        let seen = |name| self.names.iter().position(|&other| other == name);
        choice.name.and_then(seen).map_or(0, |number| number as u8 + 1)
    }

    /// The model's file.
    fn model(&self) -> Vec<u8> {
        let mut out = head_and_labels(&vec![0; self.states], self.names.len() as u8 + 1, self.choices.len());
        for choice in &self.choices {
            let written = (choice.source, self.action(choice), WHOLE as i64);
            append(&mut out, Terms::Lowest, written, choice.entries.iter().map(|&(target, parts)| (target, parts as i64)));
        }
        out
    }
}

/// Reads a text, refusals 31 and 32.
fn read<'a, 'b>(limits: &'b Limits, text: &'a [u8]) -> Result<Read<'a, 'b>, Fault> {
    let first = ended(text).unwrap_or_default();
    let Some(head) = head(first).filter(|head| head.keeps(limits)) else { return fault(LINE, 0) };
    let mut read = Read { limits, states: head.states, lines: 0, choices: Vec::new(), names: Vec::new() };
    let mut place = first.len() + 1;
    while place < text.len() {
        let rest = &text[place..];
        if let Some(last) = read.choices.last().filter(|last| !rest.starts_with(last.prefix.as_bytes())) {
            last.judge()?;
        }
        let bytes = ended(rest);
        if bytes.and_then(line).and_then(|line| read.take(place, line)).is_none() {
            return fault(LINE, place);
        }
        place += bytes.unwrap_or_default().len() + 1;
    }
    read.choices.last().map_or(Ok(()), Choice::judge)?;
    if (read.choices.len(), read.lines) != (head.choices, head.transitions) {
        return fault(LINE, text.len());
    }
    Ok(read)
}

impl Limits {
    /// Reads a text of PRISM; its model's file stands first in the buffer.
    pub fn read_prism(&self, text: &[u8], buffer: &mut [u8]) -> Answer {
        match read(self, text) {
            Ok(read) => write(&read.model(), buffer, BUFFER),
            Err(fault) => refused(1, text, fault),
        }
    }
}
