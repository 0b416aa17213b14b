//! Why something is Indeterminate (document 02, 4): which part's code counts, and what of it an answer shows.

use crate::policy::{Decision, Value};
use crate::tally::Item;
use crate::truth::{Evaluator, Truth};

/// A status code, with its number.
#[derive(Clone, Copy, PartialEq, Eq, Debug)]
pub enum Status {
    Missing = 1,
    Processing = 2,
}

/// What may be Indeterminate.
pub trait Outcome {
    fn status(&self) -> Option<Status>;
}

impl Outcome for Truth {
    fn status(&self) -> Option<Status> {
        match self {
            Truth::Unknown(status) => Some(*status),
            _ => None,
        }
    }
}

impl Outcome for Decision {
    fn status(&self) -> Option<Status> {
        match self {
            Decision::Indeterminate(status) => Some(*status),
            _ => None,
        }
    }
}

impl Outcome for Result<Value, Status> {
    fn status(&self) -> Option<Status> {
        self.err()
    }
}

/// An Indeterminate part: its place among the parts, its effect where it has one, and its code.
#[derive(Clone, Copy)]
pub struct Lost {
    pub place: usize,
    pub effect: Option<Decision>,
    pub status: Status,
}

/// Which code counts of those of the Indeterminate parts, in stored order, of something with this name.
pub type Pick = fn(&'static str, &[Lost]) -> Status;

pub fn first(_: &'static str, lost: &[Lost]) -> Status {
    lost[0].status
}

impl Evaluator<'_> {
    /// The code of something with these Indeterminate parts.
    pub fn code(&mut self, name: &'static str, lost: &[Lost]) -> Status {
        self.count_two_parts(name, lost);
        (self.ways.pick)(name, lost)
    }

    /// Evaluates a part, and notes it where it is Indeterminate.
    pub fn part<T: Outcome>(
        &mut self,
        lost: &mut Vec<Lost>,
        (place, effect): (usize, Option<Decision>),
        evaluate: impl FnOnce(&mut Self) -> T,
    ) -> T {
        let before = self.shown.len();
        let outcome = self.whole(evaluate);
        if let Some(status) = outcome.status() {
            lost.push(Lost { place, effect, status });
        }
        if lost.len() > 1 {
            self.shown.truncate(before); // another part's code counts
        }
        outcome
    }

    /// Evaluates something by itself: where it is not Indeterminate, nothing of it shows in the answer's code.
    pub fn whole<T: Outcome>(&mut self, evaluate: impl FnOnce(&mut Self) -> T) -> T {
        let before = self.shown.len();
        let outcome = evaluate(self);
        if outcome.status().is_none() {
            self.shown.truncate(before);
        }
        outcome
    }

    /// Counts this if the answer turns out to have its code from here.
    pub fn show(&mut self, group: &'static str, item: impl Into<Item>) {
        if self.asides == 0 {
            self.shown.push((group, item.into()));
        }
    }
}
