//! The counts of document 02, 5: whose values of its key a record that asks for values meets in the request, where it
//! decides: had it asked otherwise, the answer would be another.

use crate::decide;
use crate::policy::Decision;
use crate::record::*;
use crate::tally::{pairs, triples, words, Item, Tally, Wanted};
use crate::truth::takes;

const OF_ANY: &str = "values for issuer 0";
const OF_ONE: &str = "values for an issuer";
const ONE_BIT: &str = "one value of another issuer, which differs in one bit";
const ONE_KEY: &str = "records of one key that decide";

/// The records that ask for values, as the tables of counts name them.
const ASKING: [&str; 3] = ["match", "comparison", "attribute"];
const NO_VALUE: &str = "no value of the key";
const VALUES: [&str; 3] = ["1 value", "2 values", "3 values"];
const OWN: [&str; 4] = ["none of its own", "1 of its own", "2 of its own", "3 of its own"];
const NO_OTHER: &str = "no other";
/// Nobody's, somebody's, or both.
const WHOSE: [&str; 3] = ["nobody's", "somebody's", "nobody's and somebody's"];
const OTHERS: [[&str; 3]; 3] = [
    ["1 of nobody", "1 of another", ""],
    ["2 of nobody", "2 of others", "2 of nobody and another"],
    ["3 of nobody", "3 of others", "3 of nobody and others"],
];
const BITS: [&str; 16] = [
    "bit 0", "bit 1", "bit 2", "bit 3", "bit 4", "bit 5", "bit 6", "bit 7", "bit 8", "bit 9", "bit 10", "bit 11",
    "bit 12", "bit 13", "bit 14", "bit 15",
];
const TWO_ISSUERS: [&str; 2] = ["issuer 0 and another", "two issuers"];

/// Books with more records that ask for values are not counted.
const MOST_COUNTED: usize = 8;

/// Counts the records of an accepted book that decide on an accepted request.
pub fn count(book: &[u8], request: &[u8], tally: &mut Tally) {
    let (records, entries) = (records(book), entries(request));
    let asking: Vec<usize> = (0..records.len()).filter(|&at| records[at].asks()).collect();
    if asking.is_empty() || asking.len() > MOST_COUNTED {
        return;
    }
    let answer = answer(&records, &entries);
    let mut deciding = Vec::new();
    for at in asking {
        let met = Met::of(&records[at], &entries);
        if met.values() <= VALUES.len() && met.asked_otherwise(&records, &entries, at) != answer {
            met.count(tally);
            deciding.push(records[at]);
        }
    }
    count_one_key(&deciding, tally);
}

/// What an answer shows.
fn answer(records: &[Record], entries: &[Entry]) -> (Decision, Vec<u16>) {
    let (answer, _) = decide::decide(&book_bytes(records), &request_bytes(entries), &mut Tally::default());
    (answer.decision, answer.obligations)
}

/// A record, and the issuers of the request's values of its key: those that it takes, and those that it leaves.
struct Met<'a> {
    record: &'a Record,
    own: Vec<u16>,
    others: Vec<u16>,
}

impl Met<'_> {
    fn of<'a>(record: &'a Record, entries: &[Entry]) -> Met<'a> {
        let of_key = entries.iter().filter(|entry| entry.has_key_of(&record.asked()));
        let (own, others) = of_key.map(Entry::issuer).partition(|&issuer| takes("", record.issuer(), issuer));
        Met { record, own, others }
    }

    fn values(&self) -> usize {
        self.own.len() + self.others.len()
    }

    /// The answer if this record, at its place, took what it leaves too or, where it leaves nothing, took nothing;
    /// where the request has no value of its key, the answer if it had one.
    fn asked_otherwise(&self, records: &[Record], entries: &[Entry], at: usize) -> (Decision, Vec<u16>) {
        let (mut records, mut entries) = (records.to_vec(), entries.to_vec());
        match (self.values(), self.others.len()) {
            (0, _) => entries.push(self.record.asked()),
            (_, 0) => records[at].set_issuer(stranger(&entries)),
            _ => records[at].set_issuer(ANY),
        }
        answer(&records, &entries)
    }

    fn count(&self, tally: &mut Tally) {
        let name = self.record.name();
        let (group, item): (_, Item) = match (self.record.issuer(), self.values(), self.others.len()) {
            (ANY, 0, _) => (OF_ANY, (name, NO_VALUE).into()),
            (ANY, values, _) => (OF_ANY, (name, VALUES[values - 1], WHOSE[whose(&self.own)]).into()),
            (_, 0, _) => (OF_ONE, (name, NO_VALUE).into()),
            (_, _, 0) => (OF_ONE, (name, OWN[self.own.len()], NO_OTHER).into()),
            (_, _, others) => (OF_ONE, (name, OWN[self.own.len()], OTHERS[others - 1][whose(&self.others)]).into()),
        };
        tally.met(group, item);
        if let [other] = self.others[..] {
            let differing = other ^ self.record.issuer();
            if other != NOBODY && differing.is_power_of_two() {
                tally.met(ONE_BIT, (name, BITS[differing.trailing_zeros() as usize]));
            }
        }
    }
}

/// An issuer that vouches for nothing in this request.
fn stranger(entries: &[Entry]) -> u16 {
    let vouches = |issuer: u16| entries.iter().any(|entry| entry.issuer() == issuer);
    (1..=u16::MAX).find(|&issuer| !vouches(issuer)).expect("a request has few issuers")
}

/// Whether values with these issuers are nobody's, somebody's or both.
fn whose(issuers: &[u16]) -> usize {
    match (issuers.contains(&NOBODY), issuers.iter().any(|&issuer| issuer != NOBODY)) {
        (true, true) => 2,
        (nobodys, _) => usize::from(!nobodys),
    }
}

/// Counts records that ask for one key by two issuers, where both decide.
fn count_one_key(deciding: &[Record], tally: &mut Tally) {
    for (at, first) in deciding.iter().enumerate() {
        for second in &deciding[at + 1..] {
            let issuers = [first.issuer(), second.issuer()];
            if first.asked().has_key_of(&second.asked()) && issuers[0] != issuers[1] {
                tally.met(ONE_KEY, TWO_ISSUERS[usize::from(!issuers.contains(&ANY))]);
            }
        }
    }
}

/// What a run must meet of issuers, directly and in ticks.
pub fn wanted_issuers() -> Wanted {
    let nobodys_or_not = [&OTHERS[0][..2], &OTHERS[1], &OTHERS[2]].concat();
    vec![
        (OF_ANY, pairs(&ASKING, &[NO_VALUE])),
        (OF_ANY, triples(&ASKING, &VALUES, &WHOSE[..2])),
        (OF_ANY, triples(&ASKING, &VALUES[1..], &WHOSE[2..])),
        (OF_ONE, pairs(&ASKING, &[NO_VALUE])),
        (OF_ONE, triples(&ASKING, &OWN[1..], &[NO_OTHER])),
        (OF_ONE, triples(&ASKING, &OWN[..1], &nobodys_or_not)),
        (OF_ONE, triples(&ASKING, &OWN[1..2], &nobodys_or_not[..5])),
        // For a comparison and an attribute two of its own are too many already.
        (OF_ONE, triples(&["match"], &OWN[2..3], &nobodys_or_not[..2])),
        (ONE_BIT, pairs(&ASKING, &BITS)),
        (ONE_KEY, words(&TWO_ISSUERS)),
    ]
}
