//! K13's writer: as many flow records as there can be for so many states and transitions.

use super::{numbered, refused_pair, write_both, Limits, PairAnswer, TRANSITIONS};

/// n states, all with label 0, m 1, and internal transitions from state 0 to itself with 1/1.
fn model(n: usize, count: usize) -> Vec<u8> {
    let head = [b'P', b'A', n as u8, 1, (count / 256) as u8, (count % 256) as u8];
    [&head[..], b"LB", &vec![0; n], &b"TR\0\0\0\x01\x01\0\0\x01".repeat(count)].concat()
}

/// No refutations, one block, and every other state meets each transition of state 0 by staying.
fn certificate(n: usize, count: usize) -> Vec<u8> {
    let mut out = [&b"CT\0\0BK"[..], &vec![0; n]].concat();
    for t in 1..n {
        // D 1, no k, and w(t,0) = 1
        let flow = [&b"FL\0\0\0\x01\0\0\0\x01"[..], &[t as u8, 0], b"\0\0\0\x01"].concat();
        out.extend(flow.repeat(count));
    }
    out
}

impl Limits {
    /// Writes a model of so many states and transitions, and its certificate.
    pub fn largest(&self, states: u32, transitions: u32, model_out: &mut [u8], certificate_out: &mut [u8]) -> PairAnswer {
        let (n, count) = (states as usize, transitions as usize);
        if n < 1 || n > self.states || count > TRANSITIONS {
            return refused_pair(numbered(40));
        }
        write_both([model(n, count), certificate(n, count)], [model_out, certificate_out], 41)
    }
}
