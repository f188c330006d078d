//! Random lowerings that Check accepts: a source, and a target written from it
//! row by row, with the map and the two tables. finish.rs writes the roots and
//! the lists.

use crate::graphs::Builder;
use crate::operation::Lists;
use crate::random::Random;
use crate::signatures::Function;
use crate::sources;
use crate::tags::*;

const MAX: u64 = u64::MAX;

/// An entry of the call table with its arguments.
pub struct Called {
    pub variable: u64,
    pub function: Function,
    pub arguments: Vec<u64>,
}

/// A lowering in the making.
pub struct Writer<'r> {
    pub source: Builder<'r>,
    /// Images of the rows so far; MAX for none.
    pub map: Vec<u64>,
    pub target: Vec<[u64; 4]>,
    pub bits: Vec<u64>,
    pub reads: Vec<[u64; 3]>,
    pub calls: Vec<Called>,
    pub roots: Vec<u64>,
}

/// The eleven lists of an accepted lowering, of a source of 0 to about `rows`
/// rows.
pub fn accepted(random: &mut Random, rows: usize) -> Lists {
    let mut writer = Writer::new(sources::source(random, rows));
    let roots = writer.source_roots();
    writer.written(roots)
}

/// The same with roots of one bit.
pub fn strict(random: &mut Random, rows: usize) -> Lists {
    let mut source = sources::source(random, rows);
    let roots = one_bit_roots(&mut source);
    of(source, roots)
}

/// Up to five roots of one bit.
fn one_bit_roots(source: &mut Builder) -> Vec<u64> {
    let count = match source.len() {
        0 => source.random.pick(&[0, 0, 1]),
        _ => source.random.place(6),
    };
    (0..count).map(|_| source.one_bit_row()).collect()
}

/// The twelve lists of an accepted lowering of a second edition, with roots of any width or
/// of one bit.
pub fn with_sorts(random: &mut Random, rows: usize, strict: bool) -> Lists {
    let mut source = sources::with_sorts(random, rows);
    if strict {
        let roots = one_bit_roots(&mut source);
        return of(source, roots);
    }
    let mut writer = Writer::new(source);
    let roots = writer.source_roots();
    writer.written(roots)
}

/// The same of this source with these roots.
pub fn of(source: Builder, roots: Vec<u64>) -> Lists {
    Writer::new(source).written(roots)
}

impl<'r> Writer<'r> {
    fn new(source: Builder<'r>) -> Writer<'r> {
        Writer {
            source,
            map: Vec::new(),
            target: Vec::new(),
            bits: Vec::new(),
            reads: Vec::new(),
            calls: Vec::new(),
            roots: Vec::new(),
        }
    }

    fn written(mut self, roots: Vec<u64>) -> Lists {
        self.lower_rows(&roots);
        self.shuffle_tables();
        self.roots = roots.iter().map(|&root| self.image(root)).collect();
        self.congruence_roots();
        if self.random().once_in(2) {
            self.reorder();
        }
        self.lists(roots)
    }

    pub fn random(&mut self) -> &mut Random {
        self.source.random
    }

    fn image(&self, row: u64) -> u64 {
        self.map[row as usize]
    }

    /// Up to three source rows, often the last ones, some twice.
    fn source_roots(&mut self) -> Vec<u64> {
        let rows = self.source.len();
        let count = if rows == 0 { 0 } else { self.random().place(4) };
        let mut roots: Vec<u64> = Vec::new();
        for _ in 0..count {
            let any = self.random().place(rows);
            let root = self.random().pick(&[any, any, rows - 1]) as u64;
            roots.push(root);
        }
        roots
    }

    /// Lowers the rows that the roots need and some of the others; the rest
    /// get no image. Rows that nothing uses are put between.
    fn lower_rows(&mut self, roots: &[u64]) {
        let drops = self.random().pick(&[0, 0, 1, 2]);
        let mut needed = vec![false; self.source.len()];
        roots.iter().for_each(|&root| needed[root as usize] = true);
        for row in (0..needed.len()).rev() {
            needed[row] |= self.random().below(3) >= drops;
            if needed[row] {
                let uses = self.uses(row);
                uses.iter().for_each(|&used| needed[used as usize] = true);
            }
        }
        for (row, needed) in needed.into_iter().enumerate() {
            if self.random().once_in(16) {
                self.unused_row();
            }
            let image = if needed { self.lower(row) } else { MAX };
            self.map.push(image);
        }
    }

    /// The source rows whose images a row's image is made of.
    fn uses(&self, row: usize) -> Vec<u64> {
        let [tag, a, b, c, d] = self.source.rows[row];
        match tag {
            SELECT => {
                let (levels, end) = self.levels(b, c, d);
                let mut uses: Vec<u64> =
                    levels.iter().flat_map(|&[at, value]| [at, value]).collect();
                if !levels.is_empty() || end.is_none() {
                    uses.push(b);
                }
                uses.extend(end);
                uses
            }
            CALL => (0..d).map(|l| self.source.side[(c + l) as usize]).collect(),
            _ => {
                let fields = [a, b, c];
                let named = |k: &usize| *k <= TAGS[tag as usize].1 && names_row(tag, *k);
                (1..4).filter(named).map(|k| fields[k - 1]).collect()
            }
        }
    }

    /// The bits of a row that is a constant.
    fn constant(&self, row: u64) -> Option<&[u64]> {
        match self.source.rows[row as usize] {
            [CONST, start, width, ..] => {
                Some(&self.source.bits[start as usize..][..width as usize])
            }
            _ => None,
        }
    }

    /// The pairs of a Select that get an Ite, newest first, and the value row
    /// of the pair of equal constants that ends them, if there is one.
    fn levels(&self, index: u64, start: u64, count: u64) -> (Vec<[u64; 2]>, Option<u64>) {
        let mut levels = Vec::new();
        for l in 0..count {
            let at = self.source.side[(start + 2 * l) as usize];
            let value = self.source.side[(start + 2 * l + 1) as usize];
            match (self.constant(at), self.constant(index)) {
                (Some(one), Some(other)) if one == other => return (levels, Some(value)),
                (Some(_), Some(_)) => {}
                _ => levels.push([at, value]),
            }
        }
        (levels, None)
    }

    /// Puts the image of a row.
    fn lower(&mut self, row: usize) -> u64 {
        let [tag, a, b, c, d] = self.source.rows[row];
        match tag {
            VAR => self.variable(a),
            CONST => self.put_constant(row as u64),
            SELECT => self.lower_select(a, b, c, d),
            CALL => {
                let uses = self.uses(row);
                let widths = uses.iter().map(|&r| self.source.widths[r as usize]);
                let function = Function {
                    number: a,
                    arguments: widths.collect(),
                    result: b,
                };
                let arguments = uses.iter().map(|&r| self.image(r)).collect();
                self.call_variable(function, arguments)
            }
            _ => {
                let mapped = |(k, &field): (usize, &u64)| {
                    if k < TAGS[tag as usize].1 && names_row(tag, k + 1) {
                        self.image(field)
                    } else {
                        field
                    }
                };
                let fields: Vec<u64> = [a, b, c].iter().enumerate().map(mapped).collect();
                self.put([tag, fields[0], fields[1], fields[2]])
            }
        }
    }

    fn lower_select(&mut self, array: u64, index: u64, start: u64, count: u64) -> u64 {
        let (levels, end) = self.levels(index, start, count);
        let mut rest = match end {
            Some(value) => self.image(value),
            None => self.read_variable(array, self.image(index)),
        };
        for &[at, value] in levels.iter().rev() {
            let equal = self.put([EQ, self.image(at), self.image(index), 0]);
            rest = self.put([ITE, equal, self.image(value), rest]);
        }
        rest
    }

    fn variable(&mut self, width: u64) -> u64 {
        self.target.push([VAR, width, 0, 0]);
        self.target.len() as u64 - 1
    }

    /// The variable of this key in the read table, a new one if there is none.
    fn read_variable(&mut self, array: u64, index: u64) -> u64 {
        let known = self.reads.iter().find(|read| read[1..] == [array, index]);
        if let Some(read) = known {
            return read[0];
        }
        let variable = self.variable(self.source.shape(array)[1]);
        self.reads.push([variable, array, index]);
        variable
    }

    /// The variable of this key in the call table, a new one if there is none.
    fn call_variable(&mut self, function: Function, arguments: Vec<u64>) -> u64 {
        let same = |call: &&Called| call.function == function && call.arguments == arguments;
        if let Some(call) = self.calls.iter().find(same) {
            return call.variable;
        }
        let variable = self.variable(function.result);
        self.calls.push(Called {
            variable,
            function,
            arguments,
        });
        variable
    }

    /// Puts a row that is no variable, mostly only if there is none like it.
    pub fn put(&mut self, row: [u64; 4]) -> u64 {
        let known = self.target.iter().position(|&r| r == row);
        match known {
            Some(known) if !self.random().once_in(4) => known as u64,
            _ => {
                self.target.push(row);
                self.target.len() as u64 - 1
            }
        }
    }

    /// Puts a source's constant, its bits where the target has them or at the
    /// end.
    fn put_constant(&mut self, row: u64) -> u64 {
        let bits = self.constant(row).expect("a constant").to_vec();
        let known = self.bits.windows(bits.len()).position(|have| have == bits);
        let start = match known {
            Some(known) if !self.random().once_in(4) => known,
            _ => {
                self.bits.extend(&bits);
                self.bits.len() - bits.len()
            }
        };
        self.put([CONST, start as u64, bits.len() as u64, 0])
    }

    /// A variable, or a row that is there already, once more.
    fn unused_row(&mut self) {
        let rows = self.target.len();
        let width = self.random().pick(&[1, 8, 32]);
        if rows == 0 || self.random().once_in(2) {
            self.variable(width);
        } else {
            let row = self.random().place(rows);
            self.target.push(self.target[row]);
        }
    }
}
