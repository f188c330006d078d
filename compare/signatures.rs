//! The functions that a random source calls, and Calls of them. In some sources one
//! number and count stands for several functions, which differ in one width or in more.

use crate::graphs::{Builder, Style};
use crate::random::Random;
use crate::rules::CEILING;
use crate::tags::CALL;

/// A function by all that makes it one.
#[derive(Clone, PartialEq, Eq)]
pub struct Function {
    pub number: u64,
    pub arguments: Vec<u64>,
    pub result: u64,
}

/// The functions of a source.
pub struct Functions {
    known: Vec<Function>,
    /// Can one number and count have several widths?
    pub apart: bool,
    /// The argument rows of the calls so far.
    rows: Vec<Vec<u64>>,
}

impl Functions {
    /// None yet.
    pub fn new(random: &mut Random) -> Functions {
        Functions {
            known: Vec::new(),
            apart: random.below(5) < 3,
            rows: Vec::new(),
        }
    }

    /// Sometimes adds a function that differs from another one in its number alone.
    pub fn twin(&mut self, random: &mut Random) {
        if let ([only], true) = (&self.known[..], random.once_in(2)) {
            let mut twin = only.clone();
            twin.number ^= 1;
            self.known.push(twin);
        }
    }

    /// Adds a function, unless it is there, or its number and count are and may not be
    /// at other widths.
    fn add(&mut self, function: Function) {
        let namesake = |known: &Function| {
            known.number == function.number && known.arguments.len() == function.arguments.len()
        };
        let known = match self.apart {
            true => self.known.contains(&function),
            false => self.known.iter().any(namesake),
        };
        if !known {
            self.known.push(function);
        }
    }
}

impl Builder<'_> {
    /// A Call, often of a function that was called before.
    pub fn apply(&mut self, functions: &mut Functions) {
        let mut which = functions.known.len();
        if which == 0 || self.random.once_in(if functions.apart { 2 } else { 4 }) {
            let function = self.new_function(functions);
            functions.add(function);
            which = functions.known.len();
        }
        if !functions.apart || self.random.once_in(2) {
            which = 1 + self.random.place(functions.known.len());
        }
        let function = &functions.known[which - 1];
        let rows = self.argument_rows(function, functions);
        let count = rows.len() as u64;
        let start = match count {
            0 => self.start_of_none(),
            _ => self.side.len() as u64,
        };
        self.side.extend(&rows);
        self.push(CALL, [function.number, function.result, start, count]);
        functions.rows.push(rows);
    }

    /// Rows for the arguments; where functions are told apart, often those of an
    /// earlier call, if their widths fit.
    fn argument_rows(&mut self, function: &Function, functions: &Functions) -> Vec<u64> {
        let widths = |rows: &[u64]| -> Vec<u64> {
            rows.iter().map(|&row| self.widths[row as usize]).collect()
        };
        let fits = |rows: &&Vec<u64>| widths(rows) == function.arguments;
        let fitting: Vec<&Vec<u64>> = functions.rows.iter().filter(fits).collect();
        if functions.apart && !fitting.is_empty() && self.random.once_in(2) {
            return self.random.pick(&fitting).clone();
        }
        function
            .arguments
            .iter()
            .map(|&width| self.row_of(width))
            .collect()
    }

    /// Any function, or one that is known but for its widths.
    fn new_function(&mut self, functions: &Functions) -> Function {
        if !functions.apart || functions.known.is_empty() || self.random.once_in(6) {
            return self.function(functions.apart);
        }
        let known = &functions.known[self.random.place(functions.known.len())];
        let mut function = known.clone();
        let mut changes = self.random.pick(&[1, 1, 1, 1, 2, 5]);
        while changes > 0 || function == *known {
            let place = self.random.place(function.arguments.len() + 1);
            match function.arguments.get_mut(place) {
                Some(argument) => *argument = self.argument_width(),
                None => function.result = self.result_width(),
            }
            changes -= changes.min(1);
        }
        function
    }

    /// Any function. Where functions are told apart, many arguments are as common as
    /// few, but not where all choices are to be tried.
    fn function(&mut self, apart: bool) -> Function {
        let count = match (apart, self.style) {
            (true, Style::Small) => self.random.pick(&[0, 1, 1, 1, 2, 2, 3]),
            (true, _) => self.random.pick(&[0, 1, 1, 2, 2, 3, 3, 4, 4]),
            (false, _) => self.random.pick(&[0, 1, 1, 2, 2, 3, 4]),
        };
        Function {
            number: self.random.pick(&[3, 3, 3, 5, 0, 0, u64::MAX]),
            arguments: (0..count).map(|_| self.argument_width()).collect(),
            result: self.result_width(),
        }
    }

    fn argument_width(&mut self) -> u64 {
        match self.style {
            Style::Small => self.random.pick(&[1, 2, 2, 2, 3, 8]),
            Style::Wide => self.random.pick(&[1, 8, 32, 32, CEILING]),
            _ => self.random.pick(&[1, 8, 8, 32, 32]),
        }
    }

    fn result_width(&mut self) -> u64 {
        match self.style {
            Style::Small => self.random.pick(&[1, 2, 2, 2, 3, 8]),
            Style::Wide => self.width(),
            _ => self.random.pick(&[1, 8, 8, 32, 64]),
        }
    }
}
