//! Check once more, after the scope's text and without the published Rust: the
//! answer, and what acceptance leaves in the four lent lists. It looks only
//! where none of 15 to 18 applies. Widths are in wellformed.rs, roots in
//! congruence.rs, what makes two calls one function is in functions.rs, the step that the
//! strict check has more is in strict.rs, and the widths of arrays are in sorts.rs.

use crate::check::at as place;
use crate::functions::{Asked, Rule};
use crate::operation::Lists;
use crate::ours::Answer;
use crate::rules::{answer, ACCEPTED, SOURCE, TARGET};
use crate::sorts::{self, Edition, Sorts};
use crate::strict::{Step, Strict};
use crate::tags::*;
use crate::wellformed::{at, row_widths, rows, stretch, Memory, Row};

const MAX: u64 = u64::MAX;

/// The widths of both graphs, the classes and the entry offsets.
pub type Written = [Vec<u64>; 4];

pub struct Check<'l> {
    pub source: Vec<Row>,
    pub source_bits: &'l [u64],
    pub side: &'l [u64],
    pub source_roots: &'l [u64],
    pub map: &'l [u64],
    pub reads: &'l [u64],
    pub calls: &'l [u64],
    pub arguments: &'l [u64],
    pub target: Vec<Row>,
    pub target_bits: &'l [u64],
    pub target_roots: &'l [u64],
    /// Of the rows of both graphs, once these are known to be well formed.
    pub widths: [Vec<u64>; 2],
    /// Of target rows.
    pub classes: Vec<u64>,
    pub entries: Vec<u64>,
    /// What gives arrays their shapes.
    pub edition: Edition<'l>,
    pub rules: Rules,
}

/// The rules that there are wrong ones of.
#[derive(Clone, Copy)]
pub struct Rules {
    /// Which calls are of one function.
    pub functions: Rule,
    /// Which roots are taken.
    pub strict: Strict,
    /// Which shape an array has.
    pub sorts: Sorts,
}

impl Rules {
    /// The right ones of a check, strict or not.
    pub fn right(strict: bool) -> Rules {
        Rules {
            functions: Rule::Right,
            strict: Strict::of(strict),
            sorts: Sorts::Right,
        }
    }
}

/// The answer, and the four lists where it is acceptance.
pub fn check(lists: &Lists) -> (Answer, Written) {
    check_by(Rules::right(false), lists)
}

/// The same by these rules.
pub fn check_by(rules: Rules, lists: &Lists) -> (Answer, Written) {
    let target = rows(&lists[place::TARGET], TARGET.row);
    let mut check = Check {
        source: rows(&lists[place::SOURCE], SOURCE.row),
        source_bits: &lists[place::SOURCE_BITS],
        side: &lists[place::SIDE],
        source_roots: &lists[place::SOURCE_ROOTS],
        map: &lists[place::MAP],
        reads: &lists[place::READS],
        calls: &lists[place::CALLS],
        arguments: &lists[place::ARGUMENTS],
        widths: Default::default(),
        classes: vec![0; target.len()],
        entries: vec![0; target.len()],
        edition: Edition::of(lists),
        rules,
        target,
        target_bits: &lists[place::TARGET_BITS],
        target_roots: &lists[place::TARGET_ROOTS],
    };
    match check.judged() {
        Ok(()) => {
            let [source, target] = check.widths;
            (ACCEPTED, [source, target, check.classes, check.entries])
        }
        Err(refusal) => (refusal, Default::default()),
    }
}

impl Check<'_> {
    /// Every refusal from 1 on in its order.
    fn judged(&mut self) -> Result<(), Answer> {
        let memory = Memory::by(self.rules.sorts, self.side, self.edition);
        let source = row_widths(&self.source, self.source_bits.len(), memory)
            .map_err(|row| answer(1, row, 0))?;
        let target = row_widths(&self.target, self.target_bits.len(), Memory::NONE)
            .map_err(|row| answer(2, row, 0))?;
        if self.rules.sorts.step() == sorts::Step::BehindWidths {
            self.rules.sorts.refused(self.edition).map_or(Ok(()), Err)?;
        }
        self.widths = [source, target];
        self.strict_roots(Step::Widths)?;
        let (rows, words) = (self.source.len() as u64, self.map.len() as u64);
        if rows != words {
            return Err(answer(3, rows, words));
        }
        self.strict_roots(Step::MapLength)?;
        self.read_table()?;
        self.call_table()?;
        for row in 0..rows {
            self.match_row(row)
                .map_err(|number| answer(number, row, 0))?;
        }
        if let Some(dead) = self.classes.iter().position(|class| matches!(class, 2 | 3)) {
            return Err(answer(14, dead as u64, 0));
        }
        self.roots()
    }

    /// 5, and class 2 for the variables of reads.
    fn read_table(&mut self) -> Result<(), Answer> {
        for (k, entry) in self.reads.chunks(3).enumerate() {
            let &[variable, array, index] = entry else {
                return Err(answer(5, k as u64, 0));
            };
            let mut before = self.reads.chunks(3).take(k);
            let again = before.any(|e| e[1..] == [array, index]);
            let shape = (self.rules.sorts).shape(self.edition, array, sorts::Asked::Read);
            let fits = shape.is_some_and(|[index_width, cell]| {
                at(&self.target, variable) == Some([VAR, cell, 0, 0, 0])
                    && at(&self.widths[1], index) == Some(index_width)
            });
            if !fits || at(&self.classes, variable) != Some(0) || again {
                return Err(answer(5, k as u64, 0));
            }
            self.classes[variable as usize] = 2;
            self.entries[variable as usize] = 3 * k as u64;
        }
        Ok(())
    }

    /// 6, and class 3 for the variables of calls.
    fn call_table(&mut self) -> Result<(), Answer> {
        for (k, entry) in self.calls.chunks(4).enumerate() {
            if !self.call_entry(k, entry) {
                return Err(answer(6, k as u64, 0));
            }
            self.classes[entry[0] as usize] = 3;
            self.entries[entry[0] as usize] = 4 * k as u64;
        }
        Ok(())
    }

    fn call_entry(&self, k: usize, entry: &[u64]) -> bool {
        let &[variable, _, start, count] = entry else {
            return false;
        };
        let Some(arguments) = stretch(self.arguments, start, count) else {
            return false;
        };
        let same = |e: &[u64]| {
            stretch(self.arguments, e[2], e[3]) == Some(arguments)
                && self.same_function(e, entry, Asked::Key)
        };
        matches!(at(&self.target, variable), Some([VAR, ..]))
            && at(&self.classes, variable) == Some(0)
            && arguments.iter().all(|&row| row < self.target.len() as u64)
            && !self.calls.chunks(4).take(k).any(same)
    }

    /// The image of a row; MAX where there is none.
    pub fn image(&self, row: u64) -> u64 {
        at(self.map, row).unwrap_or(MAX)
    }

    pub fn target_row(&self, row: u64) -> Option<Row> {
        at(&self.target, row)
    }

    pub fn is_eq(&self, row: u64, a: u64, b: u64) -> bool {
        self.target_row(row) == Some([EQ, a, b, 0, 0])
    }

    /// 4 and 7 to 11 for one row, and the class that its match gives.
    fn match_row(&mut self, row: u64) -> Result<(), u64> {
        let image = self.image(row);
        if image == MAX {
            return Ok(());
        }
        let Some(found) = self.target_row(image) else {
            return Err(4);
        };
        let own = self.source[row as usize];
        let class = self.classes[image as usize];
        match own {
            [VAR, ..] if found == own && class == 0 => self.classes[image as usize] = 1,
            [VAR, ..] => return Err(7),
            [CONST, ..] => {
                let bits = constant(own, self.source_bits);
                if constant(found, self.target_bits) != bits {
                    return Err(8);
                }
            }
            [SELECT, array, index, start, count] => {
                return self
                    .match_select(image, array, index, start, count)
                    .ok_or(10)
            }
            [CALL, function, width, start, count] => {
                let good = found == [VAR, width, 0, 0, 0]
                    && matches!(class, 3 | 5)
                    && self.names_call(image, function, start, count);
                if !good {
                    return Err(11);
                }
                self.classes[image as usize] = 5;
            }
            _ if found != self.mapped(own) => return Err(9),
            _ => {}
        }
        Ok(())
    }

    /// The row over the images of its operands.
    fn mapped(&self, row: Row) -> Row {
        let mut mapped = row;
        let used = TAGS[row[0] as usize].1;
        for k in (1..=used).filter(|&k| names_row(row[0], k)) {
            mapped[k] = self.image(row[k]);
        }
        mapped
    }

    /// The walk along the pairs, newest first, from the image on.
    fn match_select(
        &mut self,
        image: u64,
        array: u64,
        index: u64,
        start: u64,
        count: u64,
    ) -> Option<()> {
        let mut current = image;
        let own = constant(self.source[index as usize], self.source_bits);
        for l in 0..count {
            let place = (start + 2 * l) as usize;
            let [at, value] = [self.side[place], self.side[place + 1]];
            match (constant(self.source[at as usize], self.source_bits), own) {
                (Some(one), Some(other)) if one == other => {
                    return (current == self.image(value)).then_some(());
                }
                (Some(_), Some(_)) => {}
                _ => current = self.level(current, at, index, value)?,
            }
        }
        let entry = self.reads.get(at(&self.entries, current)? as usize..)?;
        let named = entry.len() >= 3 && entry[1..3] == [array, self.image(index)];
        let class = &mut self.classes[current as usize];
        if !matches!(class, 2 | 4) || !named {
            return None;
        }
        *class = 4;
        Some(())
    }

    /// The rest, where the row is the Ite of this pair.
    fn level(&self, row: u64, at: u64, index: u64, value: u64) -> Option<u64> {
        let [ITE, equal, then, rest, _] = self.target_row(row)? else {
            return None;
        };
        let good =
            then == self.image(value) && self.is_eq(equal, self.image(at), self.image(index));
        good.then_some(rest)
    }

    /// The call entry of a variable names this function over these arguments.
    fn names_call(&self, variable: u64, function: u64, start: u64, count: u64) -> bool {
        let entry = &self.calls[self.entries[variable as usize] as usize..][..4];
        let arguments = stretch(self.arguments, entry[2], entry[3]).unwrap_or(&[]);
        let same = |l: u64| self.image(self.side[(start + l) as usize]) == arguments[l as usize];
        entry[1] == function && entry[3] == count && (0..count).all(same)
    }
}

/// The bits of a row that is a constant; their count is its width.
pub fn constant(row: Row, bits: &[u64]) -> Option<&[u64]> {
    match row {
        [CONST, start, width, ..] => stretch(bits, start, width),
        _ => None,
    }
}
