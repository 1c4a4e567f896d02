//! What is printed of a model that the library has read, and so is sound.

/// The state count, from the model's head.
pub fn states(model: &[u8]) -> usize {
    model[2].into()
}

/// The transition count, from the model's head.
pub fn transitions(model: &[u8]) -> usize {
    number(&model[4..6]).into()
}

/// How many flow records a certificate for the model has at most.
pub fn most_flows(model: &[u8]) -> usize {
    zolkirta::flows(states(model), transitions(model))
}

/// The action count, from the model's head.
pub fn actions(model: &[u8]) -> usize {
    model[3].into()
}

/// The highest label of a state.
pub fn highest_label(model: &[u8]) -> u8 {
    model[8..8 + states(model)].iter().copied().max().unwrap_or(0)
}

pub struct Transition {
    /// Its number in the model.
    pub number: usize,
    pub source: u8,
    /// 0 is internal.
    pub action: u8,
    pub denominator: u16,
    pub targets: Vec<Target>,
}

pub struct Target {
    pub state: u8,
    pub weight: u16,
}

/// All transitions of the model: they follow its labels.
pub fn transitions_of(model: &[u8]) -> Vec<Transition> {
    decoded(&model[8 + states(model)..], 0)
}

/// The transitions in a run of whole records, of which the first has this number.
pub fn decoded(mut run: &[u8], mut number: usize) -> Vec<Transition> {
    let mut transitions = Vec::new();
    while !run.is_empty() {
        let (transition, rest) = first_decoded(run, number);
        transitions.push(transition);
        (run, number) = (rest, number + 1);
    }
    transitions
}

fn first_decoded(run: &[u8], number_in_model: usize) -> (Transition, &[u8]) {
    let (fixed, rest) = run.split_at(7); // mark 2, source 1, action 1, denominator 2, count 1
    let (entries, rest) = rest.split_at(3 * usize::from(fixed[6]));
    let targets = entries.chunks_exact(3).map(|entry| Target { state: entry[0], weight: number(&entry[1..]) }).collect();
    let denominator = number(&fixed[4..6]);
    (Transition { number: number_in_model, source: fixed[2], action: fixed[3], denominator, targets }, rest)
}

fn number(bytes: &[u8]) -> u16 {
    u16::from_be_bytes([bytes[0], bytes[1]])
}
