//! Makes each comparison, counts it, and reports the first difference.

use crate::archive::Place;
use crate::call::{compare, show, show_difference, Call, Kind, Outcome};
use crate::classes::{self, Name};
use crate::shrink::shrink;
use std::collections::BTreeMap;
use std::sync::atomic::{AtomicPtr, AtomicU64, Ordering};
use std::time::Instant;

/// The comparison under way, for the report of a crash.
static CURRENT: AtomicPtr<Call> = AtomicPtr::new(std::ptr::null_mut());
/// The comparisons made so far.
static MADE: AtomicU64 = AtomicU64::new(0);

extern "C" {
    fn signal(number: i32, handler: usize) -> usize;
    fn alarm(seconds: u32) -> u32;
    fn _exit(status: i32) -> !;
    fn compare_signal(number: i32);
}

// The handler of signals: aligns the stack, which qemu 7.2 does not for a handler, and goes on in `on_signal`.
std::arch::global_asm!(
    ".globl compare_signal",
    "compare_signal:",
    "and rsp, -16",
    "call compare_on_signal",
    "ud2",
);

const SIGNALS: [(i32, &str); 6] = [
    (4, "an illegal instruction"),
    (6, "an abort"),
    (7, "a bus error"),
    (8, "an arithmetic fault"),
    (11, "a fault of memory"),
    (14, "no answer in two minutes"),
];

/// How long a call may take, in seconds.
const PATIENCE: u32 = 120;

/// Reports the call under way when a signal comes, and ends.
#[export_name = "compare_on_signal"]
extern "C" fn on_signal(number: i32) -> ! {
    let what = SIGNALS.iter().find(|(known, _)| *known == number).map_or("a signal", |(_, what)| what);
    let call = CURRENT.load(Ordering::Relaxed);
    eprintln!("\nDIFFERENCE: {what} in comparison {}", MADE.load(Ordering::Relaxed) + 1);
    if !call.is_null() {
        // SAFETY: the call is lent to `watched` for as long as it is current.
        eprintln!("{}", show(unsafe { &*call }));
    }
    // SAFETY: ends the process at once.
    unsafe { _exit(1) }
}

/// Compares one call, which is reported if the archive ends the process by it.
fn watched(call: &Call, places: &[Place]) -> Result<Outcome, Box<(Outcome, Outcome)>> {
    CURRENT.store(call as *const Call as *mut Call, Ordering::Relaxed);
    let answer = compare(call, places);
    CURRENT.store(std::ptr::null_mut(), Ordering::Relaxed);
    answer
}

/// An answer by the call's name, what it was, and perhaps its number.
type Answer = (&'static str, &'static str, Option<u32>);

/// What a call answered, for the counts, beside its classes: a refusal, or where a request was taken what was done or its
/// rc. Of the collector's steps the classes say it all.
fn answer_of(call: &Call, outcome: &Outcome) -> Option<Answer> {
    let name = call.kind.shape().name;
    let answer = match (call.kind, outcome.returned) {
        (Kind::Collect, _) => return None,
        (Kind::NextSequence, _) => (name, "answered", None),
        (Kind::MostData, 0) => (name, "none", None),
        (Kind::MostData, _) => (name, "some", None),
        (Kind::TakeLine, 0) if outcome.words[4] == 0 => (name, "more", None),
        (Kind::TakeLine, 0) => (name, "complete", None),
        (Kind::Handle, 0) => match outcome.buffers[3][8..13] {
            [0xA2, ..] if outcome.words[..4] == call.words[..4] => (name, "off told", None),
            [0xA2, ..] => (name, "data written", None),
            [0xA1, 0x62, _, _, rc] => (name, "rc", Some(rc as u32)),
            [0xA1, 0x66, ..] => (name, "images listed", None),
            _ => (name, "echo", None),
        },
        (_, 0) => (name, "done", None),
        (_, number) => (name, "refused", Some(number)),
    };
    Some(answer)
}

/// The counts of a run, by kind of input.
pub struct Harness {
    places: &'static [Place],
    seed: u64,
    counts: Vec<(&'static str, u64)>,
    answers: BTreeMap<Answer, u64>,
    /// The classes by their numbers, each with how often it was met; and those of the call under way.
    met: Vec<(Name, u64)>,
    classes: Vec<usize>,
    kind: usize,
    began: Instant,
    shown: Instant,
}

impl Harness {
    /// A run with nothing compared yet, that lends at each of these places.
    pub fn new(seed: u64, places: &'static [Place]) -> Harness {
        for (number, _) in SIGNALS {
            // SAFETY: installs a handler that only reads and ends.
            unsafe { signal(number, compare_signal as *const () as usize) };
        }
        let now = Instant::now();
        Harness {
            places,
            seed,
            counts: Vec::new(),
            answers: BTreeMap::new(),
            met: classes::all().into_iter().map(|name| (name, 0)).collect(),
            classes: Vec::new(),
            kind: 0,
            began: now,
            shown: now,
        }
    }

    /// Names the kind of input that the next comparisons are of.
    pub fn kind(&mut self, name: &'static str) {
        self.kind = self.counts.iter().position(|(known, _)| *known == name).unwrap_or_else(|| {
            self.counts.push((name, 0));
            self.counts.len() - 1
        });
    }

    /// How many comparisons were made.
    pub fn total(&self) -> u64 {
        MADE.load(Ordering::Relaxed)
    }

    /// Compares one call; where the programs differ, reports the smallest such call found and ends.
    pub fn check(&mut self, call: Call) -> Outcome {
        if self.total() % 256 == 0 {
            // SAFETY: sets the alarm clock anew.
            unsafe { alarm(PATIENCE) };
            if self.shown.elapsed().as_secs() >= 5 {
                self.shown = Instant::now();
                eprintln!("{:>9} comparisons, {:.0} s", self.total(), self.began.elapsed().as_secs_f64());
            }
        }
        match watched(&call, self.places) {
            Ok(outcome) => {
                self.counts[self.kind].1 += 1;
                if let Some(answer) = answer_of(&call, &outcome) {
                    *self.answers.entry(answer).or_default() += 1;
                }
                classes::add(&call, &outcome, &mut self.classes);
                for class in self.classes.drain(..) {
                    self.met[class].1 += 1;
                }
                MADE.fetch_add(1, Ordering::Relaxed);
                outcome
            }
            Err(outcomes) => self.report(&call, &outcomes.0, &outcomes.1),
        }
    }

    /// Compares one call of the paper, and the outcome with what the paper says of it.
    pub fn expect(&mut self, call: Call, holds: impl FnOnce(&Outcome) -> bool) {
        let shown = call.clone();
        let outcome = self.check(call);
        if !holds(&outcome) {
            println!("DIFFERENCE: both programs differ from the paper, returning {}", outcome.returned);
            println!("{}", show(&shown));
            std::process::exit(1);
        }
    }

    /// Reports a difference and ends.
    fn report(&self, call: &Call, archive: &Outcome, second: &Outcome) -> ! {
        println!(
            "DIFFERENCE in comparison {} ({}), seed {}",
            self.total() + 1,
            self.counts[self.kind].0,
            self.seed
        );
        match watched(call, self.places) {
            Ok(_) => {
                println!("made a second time the programs agree: the archive keeps something between calls");
                println!("{}{}", show(call), show_difference(call, archive, second));
            }
            Err(_) => {
                // SAFETY: sets the alarm clock anew for the shrinking.
                unsafe { alarm(PATIENCE) };
                let (smallest, steps) = shrink(call, |call| watched(call, self.places).is_err());
                match watched(&smallest, self.places) {
                    Err(outcomes) => {
                        println!("the smallest such input found, in {steps} steps:\n{}", show(&smallest));
                        println!("{}", show_difference(&smallest, &outcomes.0, &outcomes.1));
                    }
                    Ok(_) => println!("{}{}", show(call), show_difference(call, archive, second)),
                }
            }
        }
        std::process::exit(1)
    }

    /// Prints how many comparisons of each kind were made, and the total.
    pub fn summary(&self) {
        for (name, count) in &self.counts {
            println!("{count:>9}  {name}");
        }
        println!("what they answered:");
        let mut calls: BTreeMap<&str, Vec<String>> = BTreeMap::new();
        for ((name, what, number), count) in &self.answers {
            let number = number.map_or(String::new(), |number| format!(" {number}"));
            calls.entry(name).or_default().push(format!("{what}{number}: {count}"));
        }
        for ((group, class), count) in &self.met {
            calls.entry(group).or_default().push(format!("{class}: {count}"));
        }
        for (name, answers) in calls {
            println!("  {name}: {}", answers.join(", "));
        }
        println!(
            "{:>9}  comparisons in all, no difference, seed {}, {:.1} s",
            self.total(),
            self.seed,
            self.began.elapsed().as_secs_f64()
        );
    }

    /// Names the classes that were met less than so many times, each with how often it was.
    pub fn rare(&self, floor: u64) -> Vec<(Name, u64)> {
        self.met.iter().filter(|(_, count)| *count < floor).copied().collect()
    }
}
