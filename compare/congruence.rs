//! The roots in restated.rs: the leading ones, then those of the pairs of reads
//! and of calls.

use crate::functions::Asked;
use crate::ours::Answer;
use crate::restated::{constant, Check};
use crate::rules::answer;
use crate::tags::*;
use crate::wellformed::stretch;

const MAX: u64 = u64::MAX;

impl Check<'_> {
    /// 12 for the leading roots, 13, then 12 for roots left over.
    pub fn roots(&self) -> Result<(), Answer> {
        if let Some(place) = self.bad_lead() {
            return Err(answer(12, place, 0));
        }
        let mut place = self.source_roots.len();
        for (variables, arguments) in self.congruences() {
            let root = self.target_roots.get(place);
            if !root.is_some_and(|&root| self.is_congruence(root, variables, &arguments)) {
                return Err(answer(13, place as u64, 0));
            }
            place += 1;
        }
        if place != self.target_roots.len() {
            return Err(answer(12, 0, 0));
        }
        Ok(())
    }

    fn bad_lead(&self) -> Option<u64> {
        let good = |k: usize| {
            let image = self.image(self.source_roots[k]);
            image != MAX && self.target_roots.get(k) == Some(&image)
        };
        let place = (0..self.source_roots.len()).find(|&k| !good(k))?;
        Some(place as u64)
    }

    /// The variables and the pairs of arguments of each root that is due.
    fn congruences(&self) -> Vec<([u64; 2], Vec<[u64; 2]>)> {
        let mut due = Vec::new();
        let reads: Vec<&[u64]> = self.reads.chunks(3).collect();
        for (p, one) in reads.iter().enumerate() {
            for other in &reads[p + 1..] {
                if one[1] == other[1] && !self.unequal(one[2], other[2]) {
                    due.push(([one[0], other[0]], vec![[one[2], other[2]]]));
                }
            }
        }
        let calls: Vec<&[u64]> = self.calls.chunks(4).collect();
        for (p, one) in calls.iter().enumerate() {
            let later = calls[p + 1..].iter();
            for other in later.filter(|other| self.same_function(one, other, Asked::Root)) {
                let of = |call: &[u64]| stretch(self.arguments, call[2], call[3]).unwrap_or(&[]);
                let pairs = of(one).iter().zip(of(other)).map(|(&a, &b)| [a, b]);
                due.push(([one[0], other[0]], pairs.collect()));
            }
        }
        due
    }

    /// Two unequal constants among the target's rows.
    fn unequal(&self, a: u64, b: u64) -> bool {
        let bits = |row: u64| constant(self.target[row as usize], self.target_bits);
        matches!((bits(a), bits(b)), (Some(a), Some(b)) if a != b)
    }

    /// BoolOr(Not(the arguments are equal), Eq(the variables)).
    fn is_congruence(&self, root: u64, [p, q]: [u64; 2], arguments: &[[u64; 2]]) -> bool {
        let Some([BOOL_OR, not, equal, ..]) = self.target_row(root) else {
            return false;
        };
        let Some([NOT, all, ..]) = self.target_row(not) else {
            return false;
        };
        self.is_eq(equal, p, q) && self.all_equal(all, arguments)
    }

    /// BoolAnd nested to the left over the equalities of the arguments.
    fn all_equal(&self, row: u64, arguments: &[[u64; 2]]) -> bool {
        match arguments {
            [] => false,
            [[a, b]] => self.is_eq(row, *a, *b),
            [before @ .., [a, b]] => match self.target_row(row) {
                Some([BOOL_AND, rest, last, ..]) => {
                    self.is_eq(last, *a, *b) && self.all_equal(rest, before)
                }
                _ => false,
            },
        }
    }
}
