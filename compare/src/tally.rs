//! How often each thing that a run should meet was met.

use std::collections::{BTreeMap, HashMap};
use std::fmt;

/// What is counted within a group.
#[derive(Clone, Copy, PartialEq, Eq, Hash, PartialOrd, Ord, Debug)]
pub enum Item {
    Number(u64),
    Word(&'static str),
    Pair(&'static str, &'static str),
    Triple(&'static str, &'static str, &'static str),
}

impl From<u64> for Item {
    fn from(number: u64) -> Item {
        Item::Number(number)
    }
}

impl From<&'static str> for Item {
    fn from(word: &'static str) -> Item {
        Item::Word(word)
    }
}

impl From<(&'static str, &'static str)> for Item {
    fn from((first, second): (&'static str, &'static str)) -> Item {
        Item::Pair(first, second)
    }
}

impl From<(&'static str, &'static str, &'static str)> for Item {
    fn from((first, second, third): (&'static str, &'static str, &'static str)) -> Item {
        Item::Triple(first, second, third)
    }
}

impl fmt::Display for Item {
    fn fmt(&self, f: &mut fmt::Formatter) -> fmt::Result {
        match self {
            Item::Number(number) => write!(f, "{number}"),
            Item::Word(word) => write!(f, "{word}"),
            Item::Pair(first, second) => write!(f, "{first}, {second}"),
            Item::Triple(first, second, third) => write!(f, "{first}, {second}, {third}"),
        }
    }
}

/// Everything that a run must meet at least once: a group and its items.
pub type Wanted = Vec<(&'static str, Vec<Item>)>;

pub fn words(list: &[&'static str]) -> Vec<Item> {
    list.iter().map(|&word| Item::Word(word)).collect()
}

pub fn numbers(list: impl IntoIterator<Item = u64>) -> Vec<Item> {
    list.into_iter().map(Item::Number).collect()
}

pub fn pairs(firsts: &[&'static str], seconds: &[&'static str]) -> Vec<Item> {
    let with = |&first| seconds.iter().map(move |&second| Item::Pair(first, second));
    firsts.iter().flat_map(with).collect()
}

pub fn triples(firsts: &[&'static str], seconds: &[&'static str], thirds: &[&'static str]) -> Vec<Item> {
    let mut list = Vec::new();
    for &first in firsts {
        for &second in seconds {
            list.extend(thirds.iter().map(|&third| Item::Triple(first, second, third)));
        }
    }
    list
}

#[derive(Default)]
pub struct Tally {
    counts: HashMap<(&'static str, Item), u64>,
}

impl Tally {
    pub fn met(&mut self, group: &'static str, item: impl Into<Item>) {
        self.add(group, item.into(), 1);
    }

    pub fn add(&mut self, group: &'static str, item: Item, times: u64) {
        *self.counts.entry((group, item)).or_insert(0) += times;
    }

    pub fn merge(&mut self, other: Tally) {
        for ((group, item), times) in other.counts {
            self.add(group, item, times);
        }
    }

    pub fn count(&self, group: &'static str, item: impl Into<Item>) -> u64 {
        self.counts.get(&(group, item.into())).copied().unwrap_or(0)
    }

    /// The items of `wanted` that were met less than `times` times.
    pub fn rarer(&self, wanted: &Wanted, times: u64) -> Vec<(&'static str, Item)> {
        let items = wanted.iter().flat_map(|(group, items)| items.iter().map(move |&item| (*group, item)));
        items.filter(|&(group, item)| self.count(group, item) < times).collect()
    }

    /// Prints a line a group.
    pub fn print(&self, wanted: &Wanted) {
        let mut groups: BTreeMap<&str, BTreeMap<Item, u64>> = BTreeMap::new();
        for (group, items) in wanted {
            let counts = items.iter().map(|&item| (item, 0));
            groups.entry(group).or_default().extend(counts);
        }
        for (&(group, item), &times) in &self.counts {
            groups.entry(group).or_default().insert(item, times);
        }
        for (group, items) in groups {
            let items: Vec<String> = items.iter().map(|(item, times)| format!("{item} {times}")).collect();
            println!("  {group}: {}", items.join(" | "));
        }
    }
}
