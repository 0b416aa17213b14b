//! When a run ends, and when it is good.

use crate::run::{compare, Cases};
use crate::tally::numbers;
use std::sync::atomic::{AtomicU64, Ordering};

/// How many of 10,000 cases are run until one of them was met twice, and whether the run is good.
fn cases_until(met: impl Fn(u64) -> bool + Sync) -> (u64, bool) {
    let run = AtomicU64::new(0);
    let cases = Cases { seed: 20, first: 0, count: 10_000, enough: Some(2) };
    let good = compare("until", cases, &vec![("a group", numbers([1]))], |_, tally| {
        if met(run.fetch_add(1, Ordering::Relaxed)) {
            tally.met("a group", 1_u64);
        }
        Ok(())
    });
    (run.into_inner(), good)
}

#[test]
fn a_run_ends_when_it_has_met_enough() {
    assert_eq!(cases_until(|_| true), (2_000, true));
    assert_eq!(cases_until(|case| case == 1 || case == 5_000), (6_000, true));
    assert_eq!(cases_until(|case| case == 1), (10_000, false));
}
