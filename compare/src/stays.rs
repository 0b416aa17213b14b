//! What stays of the answer where children of policies and sets stand in another order (document 02, 7).

use crate::decide;
use crate::judge::{self, Accepted};
use crate::obligations::Answer;
use crate::policy::{Algorithm, Decision};
use crate::record::*;
use crate::run::hex;
use std::fmt;

/// The least first. A status code never counts.
#[derive(Clone, Copy, PartialEq, Eq, PartialOrd, Ord, Debug)]
pub enum Stays {
    Nothing,
    Decision,
    /// Decision and obligations, these perhaps in another order.
    Numbers,
    Answer,
}

impl Stays {
    /// Where children of this policy or set are reordered, which decides so by itself, in a book that decides so.
    pub fn of(record: &Record, own: u64, whole: u64) -> Stays {
        let both = |effect: Decision| [own, whole] == [effect.number(); 2];
        match Algorithm::of(record) {
            Algorithm::FirstApplicable => Stays::Nothing,
            Algorithm::OnlyOneApplicable => Stays::Answer,
            _ if record.kind() == POLICY => Stays::Answer,
            Algorithm::DenyOverrides if both(Decision::Deny) => Stays::Decision,
            Algorithm::PermitOverrides if both(Decision::Permit) => Stays::Decision,
            _ => Stays::Numbers,
        }
    }

    /// The same whatever it and the book decide.
    pub fn at_least(record: &Record) -> Stays {
        let of = |effect: Decision| Stays::of(record, effect.number(), effect.number());
        of(Decision::Permit).min(of(Decision::Deny))
    }

    pub fn name(self) -> &'static str {
        match self {
            Stays::Nothing => "nothing",
            Stays::Decision => "decision",
            Stays::Numbers => "decision and numbers",
            Stays::Answer => "whole answer",
        }
    }
}

/// An answer as the C host gives it: the number, and what the output then holds.
#[derive(Clone, PartialEq, Eq)]
pub struct Given {
    pub number: u64,
    pub out: Vec<u8>,
}

impl fmt::Display for Given {
    /// The output up to its last byte that is not zero.
    fn fmt(&self, f: &mut fmt::Formatter) -> fmt::Result {
        let end = self.out.iter().rposition(|&byte| byte != 0).map_or(0, |last| last + 1);
        write!(f, "{:#x} {}", self.number, hex(&self.out[..end]))
    }
}

impl Given {
    /// The evaluator's, in an output of so many bytes.
    pub fn of(answer: &Answer, length: usize) -> Given {
        let mut out: Vec<u8> = answer.obligations.iter().flat_map(|number| number.to_be_bytes()).collect();
        out.resize(length, 0);
        Given { number: decide::host_number(answer), out }
    }

    pub fn decision(&self) -> u64 {
        self.number % 256
    }

    fn without_code(&self) -> u64 {
        self.number % (1 << 40)
    }

    /// Every place of the output, by rising numbers.
    fn numbers(&self) -> Vec<&[u8]> {
        let mut numbers: Vec<&[u8]> = self.out.chunks(2).collect();
        numbers.sort_unstable();
        numbers
    }

    /// What the answer of the reordered book has in another way than is claimed.
    fn fault(&self, new: &Given, stays: Stays) -> Option<&'static str> {
        match stays {
            Stays::Nothing => None,
            _ if new.decision() != self.decision() => Some("another decision"),
            Stays::Decision => None,
            _ if new.without_code() != self.without_code() => Some("more or fewer obligations"),
            Stays::Numbers if new.numbers() != self.numbers() => Some("other obligations"),
            Stays::Answer if new.out != self.out => Some("another output"),
            _ => None,
        }
    }
}

/// What is said of a book and a request: by judging the book, by deciding it, and by its run at the end.
#[derive(Clone, PartialEq, Eq)]
pub struct Said {
    pub judged: u64,
    pub host: Given,
    pub run: Given,
}

impl fmt::Display for Said {
    fn fmt(&self, f: &mut fmt::Formatter) -> fmt::Result {
        write!(f, "judged {:#x}, decided {}, run {}", self.judged, self.host, self.run)
    }
}

impl Said {
    /// What the evaluator says of this book, with outputs of so many bytes.
    pub fn expected(book: &[u8], answer: &Answer, [host, run]: [usize; 2]) -> Said {
        let judged = judge::book(book).as_ref().map_or_else(|refused| refused.refusal.packed(), Accepted::packed);
        Said { judged, host: Given::of(answer, host), run: Given::of(answer, run) }
    }

    /// What is said of the reordered book in another way than is claimed, where this stays of a decision.
    pub fn fault(&self, new: &Said, stays: impl Fn(u64) -> Stays) -> Option<&'static str> {
        if new.judged != self.judged {
            return Some("another number of records or obligations, or a refusal");
        }
        let fault = |old: &Given, new| old.fault(new, stays(old.decision()));
        fault(&self.host, &new.host).or_else(|| fault(&self.run, &new.run))
    }
}
