//! The end of writing a lowering: tables in some order, congruence roots, rows in
//! some order, and the eleven lists, with a sort table twelve.

use crate::lowering::Writer;
use crate::operation::Lists;
use crate::shapes;
use crate::tags::*;

const MAX: u64 = u64::MAX;

impl Writer<'_> {
    pub fn shuffle_tables(&mut self) {
        if self.random().once_in(2) {
            for last in 1..self.reads.len() {
                let other = self.random().place(last + 1);
                self.reads.swap(last, other);
            }
            for last in 1..self.calls.len() {
                let other = self.random().place(last + 1);
                self.calls.swap(last, other);
            }
        }
    }

    /// Adds the root of each pair of reads of one array, then of each pair of
    /// calls of one function.
    pub fn congruence_roots(&mut self) {
        for p in 0..self.reads.len() {
            for q in p + 1..self.reads.len() {
                let [one, other] = [self.reads[p], self.reads[q]];
                if one[1] == other[1] && !self.unequal(one[2], other[2]) {
                    self.congruence_root([one[0], other[0]], &[[one[2], other[2]]]);
                }
            }
        }
        for p in 0..self.calls.len() {
            for q in p + 1..self.calls.len() {
                let [one, other] = [&self.calls[p], &self.calls[q]];
                if one.function == other.function {
                    let variables = [one.variable, other.variable];
                    let both = one.arguments.iter().zip(&other.arguments);
                    let arguments: Vec<[u64; 2]> = both.map(|(&a, &b)| [a, b]).collect();
                    self.congruence_root(variables, &arguments);
                }
            }
        }
    }

    /// Are these target rows constants of different bits?
    fn unequal(&self, a: u64, b: u64) -> bool {
        let bits = |row: u64| match self.target[row as usize] {
            [CONST, start, width, _] => Some(&self.bits[start as usize..][..width as usize]),
            _ => None,
        };
        matches!((bits(a), bits(b)), (Some(a), Some(b)) if a != b)
    }

    fn congruence_root(&mut self, variables: [u64; 2], arguments: &[[u64; 2]]) {
        let mut all = None;
        for &[a, b] in arguments {
            let equal = self.put([EQ, a, b, 0]);
            all = Some(match all {
                Some(before) => self.put([BOOL_AND, before, equal, 0]),
                None => equal,
            });
        }
        let all = all.expect("two calls without arguments are one entry");
        let differ = self.put([NOT, all, 0, 0]);
        let equal = self.put([EQ, variables[0], variables[1], 0]);
        let root = self.put([BOOL_OR, differ, equal, 0]);
        self.roots.push(root);
    }

    /// Puts the target's rows in another order, operands still before their
    /// users.
    pub fn reorder(&mut self) {
        let mut place = vec![MAX; self.target.len()];
        let mut ordered = Vec::new();
        while ordered.len() < self.target.len() {
            let from = self.random().place(place.len());
            let ready =
                |row: &usize| place[*row] == MAX && renamed(&self.target[*row], &place).is_some();
            let row = (from..place.len()).chain(0..from).find(ready);
            let row = row.expect("the first row that is left has its operands");
            ordered.extend(renamed(&self.target[row], &place));
            place[row] = ordered.len() as u64 - 1;
        }
        self.target = ordered;
        let rename = |row: &mut u64| {
            if *row != MAX {
                *row = place[*row as usize];
            }
        };
        self.map.iter_mut().for_each(rename);
        self.roots.iter_mut().for_each(rename);
        for read in &mut self.reads {
            rename(&mut read[0]);
            rename(&mut read[2]);
        }
        for call in &mut self.calls {
            rename(&mut call.variable);
            call.arguments.iter_mut().for_each(rename);
        }
    }

    /// The call table and the argument list: each call's arguments where the
    /// list has them or at its end, sometimes after a word that nothing uses.
    fn call_lists(&mut self) -> [Vec<u64>; 2] {
        let [mut table, mut list] = [Vec::new(), Vec::new()];
        for call in std::mem::take(&mut self.calls) {
            if self.random().once_in(8) {
                list.push(MAX);
            }
            let count = call.arguments.len();
            let known = (0..=list.len()).find(|&s| list[s..].starts_with(&call.arguments));
            let start = match known {
                Some(known) if !self.random().once_in(4) => known,
                _ => {
                    list.extend(&call.arguments);
                    list.len() - count
                }
            };
            table.extend([
                call.variable,
                call.function.number,
                start as u64,
                count as u64,
            ]);
        }
        [table, list]
    }

    pub fn lists(mut self, source_roots: Vec<u64>) -> Lists {
        let [calls, arguments] = self.call_lists();
        let source = self.source.rows.concat();
        let sorts = self.source.sorts.map(|table| shapes::words(&table));
        let mut lists = vec![
            source,
            self.source.bits,
            self.source.side,
            source_roots,
            self.map,
            self.reads.concat(),
            calls,
            arguments,
            self.target.concat(),
            self.bits,
            self.roots,
        ];
        lists.extend(sorts);
        lists
    }
}

/// The row with its operands at their new places, if all have one.
fn renamed(row: &[u64; 4], place: &[u64]) -> Option<[u64; 4]> {
    let mut renamed = *row;
    for k in (1..=TAGS[row[0] as usize].1).filter(|&k| names_row(row[0], k)) {
        renamed[k] = place[row[k] as usize];
        if renamed[k] == MAX {
            return None;
        }
    }
    Some(renamed)
}
