//! Compares the proved update port, by its C archive, with the second program: what each call returns, its
//! out-parameters, its records and every lent byte, with guards around all that is lent, or pages without access.

mod archive;
mod call;
mod classes;
mod exchange;
mod guard_check;
mod harness;
mod images;
mod lines;
mod lumps;
mod maps;
mod paper;
mod recordings;
mod replies;
mod requests;
mod rng;
mod room;
mod sends;
mod shrink;
mod systematic;
mod writers;

use archive::Place;
use harness::Harness;
use rng::Rng;

const HELP: &str = "compare: compares the archive libport.a with the second program

  --seed N       the generator's seed (default 1)
  --count N      how many comparisons to make, at least (default 5000000)
  --exact        make each call with each buffer right before a page without access, and once more
                 with each right after one, so that a touch outside ends the program
  --alone        lend each buffer as an allocation of its own without guards, for a run under a
                 memory checker
  --guard-check  only try that a touch outside what --exact lends ends the program
  --help         this text

Prints progress, then how many comparisons of each kind were made and what they answered. On a difference it prints the
smallest failing input that it finds, with both answers, and exits with status 1. Where it met a class of calls less than
once in five thousand of N, or less than 1000 times where N is more than five million, it exits with status 3.";

/// Makes some comparisons of one kind of input.
type Generator = fn(&mut Harness, &mut Rng);

/// The generators of random inputs, each with how often it is used.
const GENERATORS: [(usize, Generator); 24] = [
    (150, lumps::single),
    (1, lumps::stream),
    (200, lines::single),
    (6, lines::history),
    (80, lines::bad),
    (80, sends::single),
    (34, sends::edge),
    (200, requests::single),
    (220, requests::starts),
    (9, requests::history),
    (1, requests::configure),
    (180, images::single),
    (1, images::history),
    (60, images::layouts),
    (80, writers::single),
    (110, replies::single),
    (1, exchange::run),
    (36, recordings::files),
    (132, recordings::small_files),
    (130, recordings::replays),
    (13, recordings::texts),
    (14, recordings::starts),
    (96, recordings::transcripts),
    (1, recordings::by_hand),
];

/// The number that follows an option.
fn number(option: &str, value: Option<String>) -> u64 {
    value.and_then(|value| value.replace('_', "").parse().ok()).unwrap_or_else(|| {
        eprintln!("{option} wants a number\n\n{HELP}");
        std::process::exit(2)
    })
}

/// Reads the options and makes the comparisons.
fn main() {
    let (mut seed, mut count, mut places) = (1, 5_000_000, &[Place::Guarded][..]);
    let mut words = std::env::args().skip(1);
    while let Some(word) = words.next() {
        match word.as_str() {
            "--seed" => seed = number("--seed", words.next()),
            "--count" => count = number("--count", words.next()),
            "--exact" => places = &[Place::BeforePage, Place::AfterPage],
            "--alone" => places = &[Place::Alone],
            "--guard-check" => return guard_check::run(),
            "--help" | "-h" => {
                println!("{HELP}");
                return;
            }
            _ => {
                eprintln!("unknown option {word}\n\n{HELP}");
                std::process::exit(2);
            }
        }
    }
    let mut harness = Harness::new(seed, places);
    paper::run(&mut harness);
    if count >= 500_000 {
        systematic::run(&mut harness, &mut Rng::new(seed, 1));
    }
    let mut rng = Rng::new(seed, 2);
    let weights: usize = GENERATORS.iter().map(|(weight, _)| weight).sum();
    while harness.total() < count {
        let mut ticket = rng.below(weights);
        for (weight, generate) in GENERATORS {
            if ticket < weight {
                generate(&mut harness, &mut rng);
                break;
            }
            ticket -= weight;
        }
    }
    harness.summary();
    let rare = harness.rare((count / 5000).min(1000));
    for ((group, class), met) in &rare {
        println!("{group}: {class}: met {met} times, which is too rarely");
    }
    if !rare.is_empty() {
        std::process::exit(3);
    }
}
