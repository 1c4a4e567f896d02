//! The plain judge gives the answers of the vectors by itself: where it and the library differ, this says which of them is right.
mod compare;
mod plain;

use compare::all_lines;
use plain::{BEFORE_K7, TODAY};

/// Every line by the limits that it was written under.
#[test]
fn the_plain_judge_gives_the_answers() {
    let all = all_lines();
    all.iter().for_each(|v| v.holds_for(v.limits()));
    let [older, today] = [BEFORE_K7, TODAY].map(|limits| all.iter().filter(|v| v.limits() == &limits).count());
    assert!(older > 2900 && today > 2800 && all.len() - older - today > 800);
}
