//! Runs many cases on all processors and reports: the seed, the counts, and how many cases differ.

use crate::random::Random;
use crate::tally::{Tally, Wanted};

/// Which cases are run. Case k of a seed is the same in every run.
#[derive(Clone, Copy)]
pub struct Cases {
    pub seed: u64,
    pub first: u64,
    pub count: u64,
    /// How often all that is wanted must be met for the run to end before `count`; without it no run does.
    pub enough: Option<u64>,
}

/// What a case says when the two sides differ: the input, and both answers.
pub type Difference = String;

const SHOWN: usize = 3;

/// After so many cases a run looks whether it has met enough.
const ROUND: u64 = 2000;

/// Compares the cases; true when none differs. A whole run must also meet all that is wanted; a
/// run that starts at a later case is a second look at some cases, and need not.
pub fn compare(
    name: &str,
    cases: Cases,
    wanted: &Wanted,
    each: impl Fn(&mut Random, &mut Tally) -> Result<(), Difference> + Sync,
) -> bool {
    println!("{name}: seed {}", cases.seed);
    let (mut tally, mut differences, mut done) = (Tally::default(), Differences::new(), 0);
    while done < cases.count {
        let round = Cases { first: cases.first + done, count: ROUND.min(cases.count - done), ..cases };
        run_round(round, &each, &mut tally, &mut differences);
        done += round.count;
        if cases.enough.map_or(false, |times| tally.rarer(wanted, times).is_empty()) {
            break;
        }
    }
    tally.print(wanted);
    differences.sort();
    for (case, difference) in differences.iter().take(SHOWN) {
        println!("{name}: case {case} differs; to see it again: compare {name} 1 {} {case}\n{difference}", cases.seed);
    }
    let rare = if cases.first == 0 { tally.rarer(wanted, cases.enough.unwrap_or(1)) } else { Vec::new() };
    for (group, item) in &rare {
        println!("{name}: met too rarely: {group}: {item}");
    }
    println!("{name}: {done} compared, {} differ", differences.len());
    differences.is_empty() && rare.is_empty()
}

/// Runs the cases of a round on all processors.
fn run_round(
    cases: Cases,
    each: &(impl Fn(&mut Random, &mut Tally) -> Result<(), Difference> + Sync),
    tally: &mut Tally,
    differences: &mut Differences,
) {
    let threads = std::thread::available_parallelism().map_or(1, |count| count.get()) as u64;
    std::thread::scope(|scope| {
        let parts: Vec<_> =
            (0..threads).map(|thread| scope.spawn(move || run_part(cases, thread, threads, each))).collect();
        for part in parts {
            let (met, differing) = part.join().expect("no case panics");
            tally.merge(met);
            differences.extend(differing);
        }
    });
}

type Differences = Vec<(u64, Difference)>;

fn run_part(
    cases: Cases,
    thread: u64,
    threads: u64,
    each: &impl Fn(&mut Random, &mut Tally) -> Result<(), Difference>,
) -> (Tally, Differences) {
    let mut tally = Tally::default();
    let mut differences = Vec::new();
    let mut case = cases.first + thread;
    while case < cases.first + cases.count {
        let mut random = Random::of_case(cases.seed, case);
        if let Err(difference) = each(&mut random, &mut tally) {
            differences.push((case, difference));
        }
        case += threads;
    }
    (tally, differences)
}

/// The seed when none is given.
pub fn seed_of_now() -> u64 {
    let since = std::time::SystemTime::now().duration_since(std::time::UNIX_EPOCH);
    since.map_or(1, |time| time.as_nanos() as u64)
}

/// Bytes as hexadecimal digits, `-` for none.
pub fn hex(bytes: &[u8]) -> String {
    if bytes.is_empty() {
        return "-".to_string();
    }
    bytes.iter().map(|byte| format!("{byte:02X}")).collect()
}
