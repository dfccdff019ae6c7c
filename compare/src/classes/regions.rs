//! The classes of the two regions of a configuration or a request.

use super::{steps::STEPS, Class, Group};
use crate::call::{layout_of, Call, Kind, Outcome};
use second::slot;

/// The two regions, with exact sums, as far as a class depends on them.
pub struct Regions {
    start_0: u128,
    end_0: u128,
    start: u128,
    end: u128,
    memory: u128,
    /// The upload slot by itself is possible, and so is the session.
    else_possible: bool,
    short_reply: bool,
    no_request: bool,
    returned: u32,
}

impl Regions {
    /// Says whether both lie in the memory, the upload slot is possible, and a byte is in both, so that this refuses.
    fn overlap(&self) -> bool {
        let in_both = self.start_0.max(self.start) < self.end_0.min(self.end);
        in_both && self.end_0 <= self.memory && self.else_possible && self.returned == 1
    }

    /// Says whether slot 0 does not lie in the memory, and nothing else refuses.
    fn outside(&self) -> bool {
        self.end_0 > self.memory && self.else_possible && self.returned == 1
    }

    /// Says whether slot 0 has no bytes.
    fn empty(&self) -> bool {
        self.start_0 == self.end_0
    }

    /// Says whether the regions were taken.
    fn taken(&self) -> bool {
        self.returned != 1
    }
}

/// The classes of both; regions may be of several.
const BOTH: [Class<Regions>; 14] = [
    ("touching, slot 0 below", |it| it.taken() && !it.empty() && it.end_0 == it.start),
    ("touching, slot 0 above", |it| it.taken() && !it.empty() && it.start_0 == it.end),
    ("slot 0 ends with the memory", |it| it.taken() && !it.empty() && it.end_0 == it.memory),
    ("slot 0 empty inside the other", |it| {
        it.taken() && it.empty() && it.start < it.start_0 && it.end_0 < it.end
    }),
    ("slot 0 empty at the memory's end", |it| it.taken() && it.empty() && it.end_0 == it.memory),
    ("refused 1: one byte in both, slot 0 below", |it| {
        it.overlap() && it.start_0 < it.start && it.end_0 == it.start + 1
    }),
    ("refused 1: one byte in both, slot 0 above", |it| {
        it.overlap() && it.end_0 > it.end && it.start_0 + 1 == it.end
    }),
    ("refused 1: slot 0 inside the other", |it| it.overlap() && it.start < it.start_0 && it.end_0 < it.end),
    ("refused 1: the other inside slot 0", |it| it.overlap() && it.start_0 < it.start && it.end < it.end_0),
    ("refused 1: the same region", |it| it.overlap() && it.start_0 == it.start && it.end_0 == it.end),
    ("refused 1: slot 0 one byte beyond the memory", |it| {
        it.outside() && !it.empty() && it.end_0 == it.memory + 1
    }),
    ("refused 1: slot 0 empty beyond the memory", |it| it.outside() && it.empty()),
    ("refused 1: slot 0's end over 64 bits", |it| it.outside() && it.end_0 >> 64 != 0),
    ("refused 1: the upload slot", |it| {
        it.returned == 1
            && (it.start == it.end || it.end > it.memory || it.end - it.start > slot::LARGEST as u128)
    }),
];

pub(super) const CONFIGURED: Group<Regions> =
    Group { name: "bg_configure, its regions", first: STEPS.end(), classes: &BOTH };

/// What only a configuration meets: it is lent no memory.
pub(super) const LARGE: Group<Regions> = Group {
    name: CONFIGURED.name,
    first: CONFIGURED.end(),
    classes: &[("slot 0 above the other's bound", |it| {
        it.taken() && it.end_0 - it.start_0 > slot::LARGEST as u128
    })],
};

pub(super) const HANDLED: Group<Regions> =
    Group { name: "bg_handle, its regions", first: LARGE.end(), classes: &BOTH };

/// What only a request meets: other reasons to refuse it come behind the regions.
pub(super) const FIRST: Group<Regions> = Group {
    name: HANDLED.name,
    first: HANDLED.end(),
    classes: &[
        ("refused 1 before 11", |it| (it.overlap() || it.outside()) && it.short_reply),
        ("refused 1 before 10", |it| (it.overlap() || it.outside()) && it.no_request),
    ],
};

/// Adds the numbers of the classes that a configuration or a request is of.
pub fn add(call: &Call, outcome: &Outcome, list: &mut Vec<usize>) {
    let [start_0, size_0, start, size] = layout_of(call).map(u128::from);
    let handled = call.kind == Kind::Handle;
    let memory = if handled { call.buffers[0].len() as u128 } else { call.numbers[4] as u128 };
    let possible_slot = (1..=slot::LARGEST as u128).contains(&size) && start + size <= memory;
    let [open, length, place, _]: [u32; 4] = call.words[..4].try_into().unwrap();
    let possible_session = !handled || open == 0 || (place >= 1 && place <= length && length as u128 <= size);
    let regions = Regions {
        start_0,
        end_0: start_0 + size_0,
        start,
        end: start + size,
        memory,
        else_possible: possible_slot && possible_session,
        short_reply: handled && call.buffers[3].len() < 32,
        no_request: handled && call.buffers[2].first().map_or(true, |op| *op != 0 && *op != 2),
        returned: outcome.returned,
    };
    let groups = if handled { [HANDLED, FIRST] } else { [CONFIGURED, LARGE] };
    groups.iter().for_each(|group| group.add(&regions, list));
}
