//! Puts children of a book's policies and sets into another order, each with all its lines (document 02, 7).

use crate::random::Random;
use crate::record::*;
use std::ops::Range;

/// The rules of a policy, or the policies and sets of a set, put into another order.
#[derive(Clone, PartialEq, Eq, Debug)]
pub struct Row {
    /// The place of the policy or set among the records of the book.
    pub parent: usize,
    /// Which child comes first, second and so on.
    pub order: Vec<usize>,
}

impl Row {
    /// The children that change places.
    pub fn moved(&self) -> Vec<usize> {
        self.order.iter().enumerate().filter(|(place, child)| place != *child).map(|(_, &child)| child).collect()
    }

    /// Every two children of which the later comes first now.
    pub fn exchanged(&self) -> Vec<(usize, usize)> {
        let mut exchanged = Vec::new();
        for (place, &later) in self.order.iter().enumerate() {
            let behind = self.order[place + 1..].iter().filter(|&&child| child < later);
            exchanged.extend(behind.map(|&earlier| (earlier, later)));
        }
        exchanged
    }
}

/// Rows of one book, each of another policy or set.
#[derive(Clone, PartialEq, Eq, Debug)]
pub struct Reordering(pub Vec<Row>);

impl Reordering {
    /// One row or several, of policies and sets that may be reordered; nothing where none of them has two children.
    pub fn draw(random: &mut Random, records: &[Record], may: impl Fn(&Record) -> bool) -> Option<Reordering> {
        let mut rows = Vec::new();
        for parent in 0..records.len() {
            let count = children(records, parent).len();
            if count >= 2 && may(&records[parent]) {
                rows.push(Row { parent, order: another_order(random, count) });
            }
        }
        if rows.is_empty() {
            return None;
        }
        random.shuffle(&mut rows);
        let count = if random.chance(60) { 1 } else { random.between(1, rows.len()) };
        rows.truncate(count);
        rows.sort_by_key(|row| row.parent);
        Some(Reordering(rows))
    }

    /// The records of a book in their new order.
    pub fn apply(&self, records: &[Record]) -> Vec<Record> {
        self.lines(records).into_iter().map(|line| records[line]).collect()
    }

    /// The old place of each record in its new order.
    pub fn lines(&self, records: &[Record]) -> Vec<usize> {
        self.lines_from(records, 0)
    }

    /// The same of a record and all below it.
    fn lines_from(&self, records: &[Record], at: usize) -> Vec<usize> {
        let (children, end) = (children(records, at), at + records[at].span());
        let first = children.first().map_or(end, |child| child.start);
        let last = children.last().map_or(end, |child| child.end);
        let mut lines: Vec<usize> = (at..first).collect();
        let as_is: Vec<usize> = (0..children.len()).collect();
        let order = self.0.iter().find(|row| row.parent == at).map_or(&as_is, |row| &row.order);
        for &child in order {
            lines.extend(self.lines_from(records, children[child].start));
        }
        lines.extend(last..end);
        lines
    }
}

/// Where the rules, or the policies and sets, right below a record stand, each with all its lines.
pub fn children(records: &[Record], parent: usize) -> Vec<Range<usize>> {
    let (mut children, mut at) = (Vec::new(), parent + 1);
    while at < parent + records[parent].span() {
        let end = at + records[at].span();
        if [SET, POLICY, RULE].contains(&records[at].kind()) {
            children.push(at..end);
        }
        at = end;
    }
    children
}

/// So many children, two or more, in another order than their own.
fn another_order(random: &mut Random, count: usize) -> Vec<usize> {
    let mut order: Vec<usize> = (0..count).collect();
    match random.below(3) {
        0 => {
            let first = random.below(count);
            order.swap(first, (first + random.between(1, count - 1)) % count);
        }
        1 => order.reverse(),
        _ => {
            while order.windows(2).all(|pair| pair[0] < pair[1]) {
                random.shuffle(&mut order);
            }
        }
    }
    order
}
