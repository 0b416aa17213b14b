//! An independent evaluator of Bachumoi's books, written from documents 01 and 02, and its comparisons with
//! the proved libraries.

mod bench;
mod books;
mod borders;
mod causes;
mod codes;
mod compare_damaged;
mod compare_decide;
mod compare_judge;
mod compare_order;
mod compare_salvage;
mod compare_text;
mod compare_ticks;
mod copied;
mod damage;
mod decide;
mod doubt;
mod expression;
mod issuers;
#[cfg(test)]
mod issuers_tests;
mod judge;
mod lent;
mod linked;
mod obligations;
mod once;
mod operands;
mod order_counts;
#[cfg(test)]
mod order_tests;
mod paper;
#[cfg(test)]
mod planted;
#[cfg(test)]
mod planted_codes;
#[cfg(test)]
mod planted_issuers;
#[cfg(test)]
mod planted_order;
#[cfg(test)]
mod planted_salvage;
#[cfg(test)]
mod planted_texts;
mod policy;
mod random;
mod record;
mod refusal;
mod reordering;
#[cfg(test)]
mod reordering_tests;
mod requests;
mod rig;
mod run;
#[cfg(test)]
mod run_tests;
mod salvage;
mod salvage_counts;
mod salvage_examples;
mod salvage_refused;
#[cfg(test)]
mod salvage_tests;
mod salvage_texts;
mod salvaging;
mod sorted;
mod spoilt;
mod status;
#[cfg(test)]
mod status_tests;
mod stays;
mod subject;
mod sums;
#[cfg(test)]
mod sums_tests;
mod tally;
#[cfg(test)]
mod tests;
mod text;
mod truth;
mod units;
mod vouched;
mod widths;
#[cfg(test)]
mod widths_tests;
mod wished;

use bench::Machine;
use run::{compare, Cases, Difference};
use std::process::ExitCode;
use subject::Rig;

const USAGE: &str = "usage: compare NAME COUNT [SEED [FIRST]]
       compare NAME until TIMES COUNT [SEED]
       compare once CALL INPUT.. [ROOM..]
       compare linked

Runs COUNT generated cases against the static library that they are about, from case FIRST (0) of
SEED (by the clock). With `until` the run ends as soon as it has met each thing that it must meet
TIMES times, and fails if COUNT cases do not. NAME is
  text     reading and writing             (library probe)
  judge    judging books and requests      (library probe)
  decide   deciding through the C host     (library host)
  ticks    translating and running         (library rig; host too, if it is there)
  damaged  damaged programmes and states   (library rig)
  salvage  salvaging half-copied books     (libraries mender, probe and host)
  order    children in another order       (libraries probe, host and rig)

`compare once` makes one call and compares it. Inputs are hexadecimal digits, `-` for none; ROOM is the
length of the output. CALL is read-book, read-request, write-book, write-request (INPUT ROOM),
judge-book, judge-request (INPUT), decide (BOOK REQUEST ROOM), salvage (BOOK REQUEST ROOM ROOM, for the
mended book and for the replacements) or salvage-text (TEXT).

`compare linked` prints the names whose library was there when this was built.";

fn main() -> ExitCode {
    let words: Vec<String> = std::env::args().skip(1).collect();
    let until = words.get(1).map_or(false, |word| word == "until");
    let numbers: Option<Vec<u64>> = words.iter().skip(1 + usize::from(until)).map(|word| word.parse().ok()).collect();
    let result = match (words.first().map(String::as_str), numbers.as_deref()) {
        (Some("once"), _) => once::once(&words[1..]).unwrap_or_else(|| Err(USAGE.to_string())),
        (Some("linked"), Some([])) => {
            print_linked();
            Ok(true)
        }
        (Some(name), Some([times, count, rest @ ..])) if until && rest.len() <= 1 => {
            run_named(name, Cases { seed: seed_of(rest), first: 0, count: *count, enough: Some(*times) })
        }
        (Some(name), Some([count, rest @ ..])) if !until && rest.len() <= 2 => {
            let first = rest.get(1).copied().unwrap_or(0);
            run_named(name, Cases { seed: seed_of(rest), first, count: *count, enough: None })
        }
        _ => Err(USAGE.to_string()),
    };
    match result {
        Ok(true) => ExitCode::SUCCESS,
        Ok(false) => ExitCode::FAILURE,
        Err(message) => {
            eprintln!("{message}");
            ExitCode::from(2)
        }
    }
}

/// The seed that is given, or else the clock's.
fn seed_of(numbers: &[u64]) -> u64 {
    numbers.first().copied().unwrap_or_else(run::seed_of_now)
}

fn print_linked() {
    let rig = rig::rig().is_some();
    let names = [
        ("text", linked::texts().is_some()),
        ("judge", linked::judge().is_some()),
        ("decide", linked::host().is_some()),
        ("ticks", rig),
        ("damaged", rig),
        ("salvage", compare_salvage::linked().is_some()),
        ("order", compare_order::linked().is_some()),
    ];
    for (name, _) in names.iter().filter(|(_, is_linked)| *is_linked) {
        println!("{name}");
    }
}

/// Runs a comparison: whether nothing differs and all was met.
fn run_named(name: &str, cases: Cases) -> Result<bool, String> {
    let missing = || format!("{name}: its library was not there when this was built");
    match name {
        "text" => {
            let library = linked::texts().ok_or_else(missing)?;
            paper_holds(name, compare_text::check_paper(library))?;
            Ok(compare(name, cases, &compare_text::wanted(), |random, tally| {
                compare_text::case(library, random, tally)
            }))
        }
        "judge" => {
            let library = linked::judge().ok_or_else(missing)?;
            paper_holds(name, compare_judge::check_paper(library))?;
            Ok(compare(name, cases, &compare_judge::wanted(), |random, tally| {
                compare_judge::case(library, random, tally)
            }))
        }
        "decide" => {
            let host = linked::host().ok_or_else(missing)?;
            paper_holds(name, compare_decide::check_paper(host))?;
            Ok(compare(name, cases, &compare_decide::wanted(), |random, tally| {
                compare_decide::case(host, random, tally)
            }))
        }
        "ticks" | "damaged" => run_on_rig(name, cases, rig::rig().ok_or_else(missing)?),
        "salvage" => {
            let calls = compare_salvage::linked().ok_or_else(missing)?;
            paper_holds(name, salvage_examples::check(&calls))?;
            Ok(compare(name, cases, &compare_salvage::wanted(), |random, tally| {
                compare_salvage::case(&calls, random, tally)
            }))
        }
        "order" => Ok(run_on_books(name, cases, &compare_order::linked().ok_or_else(missing)??)),
        _ => Err(USAGE.to_string()),
    }
}

/// The same for a comparison with the rig.
fn run_on_rig(name: &str, cases: Cases, rig: &'static dyn Rig) -> Result<bool, String> {
    if name == "damaged" {
        let machine = Machine::new(rig, None)?;
        return Ok(compare(name, cases, &compare_damaged::wanted(), |random, tally| {
            compare_damaged::case(&machine, random, tally)
        }));
    }
    let machine = Machine::new(rig, linked::host())?;
    paper_holds(name, compare_ticks::check_paper(&machine))?;
    Ok(compare(name, cases, &compare_ticks::wanted(), |random, tally| compare_ticks::case(&machine, random, tally)))
}

/// The same for the comparison of books with the same reordered.
fn run_on_books(name: &str, cases: Cases, calls: &compare_order::Calls) -> bool {
    compare(name, cases, &order_counts::wanted(), |random, tally| compare_order::case(calls, random, tally))
}

/// The worked examples hold: document 01's own, of salvaging those found by hand.
fn paper_holds(name: &str, result: Result<(), Difference>) -> Result<(), String> {
    result.map_err(|difference| format!("{name}: a worked example differs\n{difference}"))
}
