//! The classes of the collector's steps.

use super::Group;
use crate::call::{Call, Outcome};

/// A step through a lump, as far as its class depends on it.
pub struct Step {
    count: u32,
    skipping: bool,
    lump: usize,
    beyond: bool,
    returned: u32,
    length: u32,
    skips: bool,
}

impl Step {
    /// Says whether the step came to the lump's end.
    fn used_up(&self) -> bool {
        self.returned == 0 && self.length == 0
    }
}

/// All of them; a step may be of several.
pub(super) const STEPS: Group<Step> = Group {
    name: "bg_collect",
    first: 0,
    classes: &[
        ("refused 1 by its count", |step| step.returned == 1 && step.count > 126),
        ("refused 1 by an 0A", |step| step.returned == 1 && step.count <= 126),
        ("refused 1 before 12", |step| step.returned == 1 && step.lump > 256),
        ("refused 12", |step| step.returned == 12),
        ("refused 2", |step| step.returned == 2),
        ("a line", |step| step.returned == 0 && step.length > 0),
        ("a line of 127 bytes", |step| step.returned == 0 && step.length == 127),
        ("used up", Step::used_up),
        ("skipping begun", |step| step.used_up() && !step.skipping && step.skips),
        ("used up while skipping", |step| step.used_up() && step.skipping),
        ("a place beyond the end", |step| step.used_up() && step.beyond),
        ("an empty lump", |step| step.used_up() && step.lump == 0),
        ("a lump of 256 bytes", |step| matches!(step.returned, 0 | 2) && step.lump == 256),
    ],
};

/// Adds the numbers of the classes that a step is of.
pub fn add(call: &Call, outcome: &Outcome, list: &mut Vec<usize>) {
    let lump = call.buffers[1].len();
    let step = Step {
        count: call.words[0],
        skipping: call.words[1] != 0,
        lump,
        beyond: call.numbers[0] > lump as u64,
        returned: outcome.returned,
        length: outcome.words[2],
        skips: outcome.words[1] != 0,
    };
    STEPS.add(&step, list);
}
