//! The classes of calls: a run has to meet each of them often.

mod frames;
mod reads;
mod recordings;
mod regions;
mod starts;
mod steps;
mod sums;
mod texts;

use crate::call::{Call, Kind, Outcome};

/// A class by its name, and what is of it.
type Class<T> = (&'static str, fn(&T) -> bool);

/// A group of classes; each has a number, its place among the classes of all groups.
struct Group<T: 'static> {
    name: &'static str,
    first: usize,
    classes: &'static [Class<T>],
}

impl<T> Group<T> {
    /// The number behind the last class of the group.
    const fn end(&self) -> usize {
        self.first + self.classes.len()
    }

    /// The numbers of the classes, and their names.
    fn names(&self) -> impl Iterator<Item = (usize, Name)> {
        let group = self.name;
        (self.first..).zip(self.classes).map(move |(number, (name, _))| (number, (group, *name)))
    }

    /// Adds the numbers of the classes that something is of.
    fn add(&self, thing: &T, list: &mut Vec<usize>) {
        let numbered = (self.first..).zip(self.classes);
        list.extend(numbered.filter(|(_, (_, has))| has(thing)).map(|(number, _)| number));
    }
}

/// A class by the name of its group, and its own.
pub type Name = (&'static str, &'static str);

/// The names of all classes, by their numbers.
pub fn all() -> Vec<Name> {
    let configured = regions::CONFIGURED.names().chain(regions::LARGE.names());
    let handled = regions::HANDLED.names().chain(regions::FIRST.names());
    let images = reads::VALID.names().chain(reads::SPOILT.names());
    let reads = reads::READS.names().chain(images).chain(reads::REPLIES.names());
    let lines = steps::STEPS.names().chain(sums::SUMS.names()).chain(frames::FRAMES.names());
    let files = recordings::FILES.names().chain(recordings::RECORDS.names());
    let replays = recordings::REPLAYS.names().chain(recordings::TRANSCRIPTS.names());
    let texts = texts::TAKEN.names().chain(texts::REPLAYED.names());
    let starts = starts::HANDLED.names().chain(starts::SINGLE.names()).chain(starts::REPLAYED.names());
    let packets = configured.chain(handled).chain(reads).chain(starts);
    let mut all: Vec<(usize, Name)> = lines.chain(texts).chain(packets).chain(files).chain(replays).collect();
    all.sort();
    all.into_iter().map(|(_, name)| name).collect()
}

/// Adds the numbers of the classes that a call is of.
pub fn add(call: &Call, outcome: &Outcome, list: &mut Vec<usize>) {
    match call.kind {
        Kind::Collect => steps::add(call, outcome, list),
        Kind::TakeLine => {
            sums::add_read(call, outcome, list);
            texts::add(call, outcome, list);
        }
        Kind::SendFrame => {
            sums::add_sent(call, outcome, list);
            frames::add(call, outcome, list);
        }
        Kind::Configure => regions::add(call, outcome, list),
        Kind::Handle => {
            regions::add(call, outcome, list);
            reads::add(call, outcome, list);
            starts::add(call, outcome, list);
        }
        Kind::ReadReply => reads::add_reply(call, outcome, list),
        Kind::FirstRecord => recordings::add_file(call, outcome, list),
        Kind::NextRecord => recordings::add_record(call, outcome, list),
        Kind::Replay => recordings::add_replay(call, outcome, list),
        Kind::WriteTranscript => recordings::add_transcript(call, outcome, list),
        _ => {}
    }
}
