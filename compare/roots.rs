//! Roots as an operation.

use crate::damage;
use crate::operation::{Kind, Lists, Operation, Outcome};
use crate::ours;
use crate::random::Random;
use crate::reference;
use crate::rules::{answer, ACCEPTED};

pub struct Roots;

pub const ROOTS: Roots = Roots;

impl Operation for Roots {
    fn number(&self) -> u64 {
        3
    }

    fn name(&self) -> &'static str {
        "roots"
    }

    fn lists(&self) -> &'static [(&'static str, Kind)] {
        &[("widths", Kind::Words), ("roots", Kind::Words)]
    }

    fn answers(&self) -> &'static [u64] {
        &[0, 19]
    }

    /// Good roots over widths that are mostly 1, then none to two damages.
    fn generate(&self, random: &mut Random, rows: usize) -> Lists {
        let count = random.place(rows + 1);
        let other = [0, 2, 8, 32, 1 << 32, (1 << 32) + 1, (1 << 63) + 1, u64::MAX];
        let mut width = || {
            if random.once_in(3) {
                random.pick(&other)
            } else {
                1
            }
        };
        let widths: Vec<u64> = (0..count).map(|_| width()).collect();
        let good: Vec<u64> = (0..count as u64)
            .filter(|&r| widths[r as usize] == 1)
            .collect();
        let wanted = if good.is_empty() { 0 } else { random.place(12) };
        let roots = (0..wanted).map(|_| random.pick(&good)).collect();
        let mut lists = vec![widths, roots];
        for _ in 0..random.pick(&[0, 1, 1, 2]) {
            damage::damage(random, self.lists(), &mut lists);
        }
        lists
    }

    fn ours(&self, lists: &Lists) -> Outcome {
        let mut lists = lists.clone();
        let (widths, roots) = lists.split_at_mut(1);
        let answer = ours::roots(&mut widths[0], &mut roots[0]);
        Outcome {
            answer,
            lists,
            strayed: false,
        }
    }

    fn expected(&self, lists: &Lists) -> Outcome {
        let answer = match reference::roots(&lists[0], &lists[1]) {
            Ok(()) => ACCEPTED,
            Err(position) => answer(19, position, 0),
        };
        Outcome {
            answer,
            lists: lists.clone(),
            strayed: false,
        }
    }
}
