//! Graphs at the ceiling and one step further, with the widths that the scope
//! gives their rows; made cases of every operation that takes widths.

use crate::marked::{lend, Parts};
use crate::operation::Lists;
use crate::ours::Answer;
use crate::rules::{answer, Graph, ACCEPTED, CEILING, SOURCE, TARGET};
use crate::tags::*;

const MAX: u64 = u64::MAX;
const OVER: u64 = CEILING + 1;
const HALF: u64 = CEILING / 2;

/// A graph, and the widths of the rows before the first that is ill-formed.
struct Known {
    rows: Vec<[u64; 5]>,
    widths: Vec<u64>,
}

fn known(rows: &[[u64; 5]], widths: &[u64]) -> Known {
    Known {
        rows: rows.to_vec(),
        widths: widths.to_vec(),
    }
}

/// A case with its answer.
type Case = (Lists, Answer);

pub fn sources() -> Vec<Case> {
    let case = |known: Known| {
        let lists = vec![known.words(SOURCE), known.bits(), vec![], known.lent()];
        (lists, known.answer(SOURCE, ACCEPTED))
    };
    graphs().into_iter().map(case).collect()
}

pub fn targets() -> Vec<Case> {
    let case = |known: Known| {
        let lists = vec![known.words(TARGET), known.bits(), known.lent()];
        (lists, known.answer(TARGET, ACCEPTED))
    };
    core_graphs().map(case).collect()
}

/// Where no row is refused by 2, 21 names the first above 64 bits.
pub fn values() -> Vec<Case> {
    let case = |known: Known| {
        let given = vec![0; known.rows.len()];
        let (words, lent) = (known.words(TARGET), known.lent());
        let lists = vec![words, known.bits(), given, lent.clone(), lent];
        let wide = known.widths.iter().position(|&width| width > 64);
        let wide = wide.map_or(ACCEPTED, |row| answer(21, row as u64, 0));
        (lists, known.answer(TARGET, wide))
    };
    core_graphs().map(case).collect()
}

/// Each graph as a source that is its own target but for calls, then those
/// without calls as targets of no source. A refused row comes before all else
/// that is wrong: as a source before the same row of the target, as a target
/// before the length of the map.
pub fn lowerings() -> Vec<Case> {
    let source = |known: Known| (lend(lowered(&known)), known.answer(SOURCE, ACCEPTED));
    let target = |known: Known| {
        let parts = Parts {
            map: known.refused().into_iter().collect(),
            target: known.target_rows(),
            target_bits: known.bits(),
            ..Parts::default()
        };
        (lend(parts), known.answer(TARGET, ACCEPTED))
    };
    let sources = graphs().into_iter().map(source);
    sources.chain(core_graphs().map(target)).collect()
}

fn lowered(known: &Known) -> Parts {
    let rows = 0..known.rows.len() as u64;
    let call = |row: &u64| known.rows[*row as usize][0] == CALL;
    Parts {
        source: known.rows.clone(),
        source_bits: known.bits(),
        map: rows.clone().collect(),
        calls: rows.filter(call).map(|row| [row, FUNCTION, 0, 0]).collect(),
        target: known.target_rows(),
        target_bits: known.bits(),
        ..Parts::default()
    }
}

impl Known {
    fn refused(&self) -> Option<u64> {
        let row = self.widths.len();
        (row < self.rows.len()).then_some(row as u64)
    }

    /// 1 or 2 for the refused row, or what comes where all rows are taken.
    fn answer(&self, graph: Graph, taken: Answer) -> Answer {
        self.refused()
            .map_or(taken, |row| answer(graph.number, row, 0))
    }

    fn words(&self, graph: Graph) -> Vec<u64> {
        let rows = self.rows.iter();
        rows.flat_map(|row| row[..graph.row].to_vec()).collect()
    }

    /// Bits enough for every constant, where there is one.
    fn bits(&self) -> Vec<u64> {
        let constant = self.rows.iter().any(|row| row[0] == CONST);
        vec![1; if constant { OVER as usize } else { 0 }]
    }

    fn lent(&self) -> Vec<u64> {
        vec![7; self.rows.len() + 1]
    }

    /// The rows as a target has them: a variable for a call.
    fn target_rows(&self) -> Vec<[u64; 4]> {
        let row = |&[tag, a, b, c, _]: &[u64; 5]| match tag {
            CALL => [VAR, b, 0, 0],
            _ => [tag, a, b, c],
        };
        self.rows.iter().map(row).collect()
    }
}

/// The function that is called.
const FUNCTION: u64 = 3;

fn graphs() -> Vec<Known> {
    let call = |width| [CALL, FUNCTION, width, 0, 0];
    let calls = vec![
        known(&[call(CEILING)], &[CEILING]),
        known(&[call(OVER)], &[]),
        known(&[call(MAX)], &[]),
    ];
    let [zero, sign] = [ZERO_EXT, SIGN_EXT].map(extensions);
    [leaves(), sums(), zero, sign, calls]
        .into_iter()
        .flatten()
        .collect()
}

/// Those without calls.
fn core_graphs() -> impl Iterator<Item = Known> {
    let core = |known: &Known| known.rows.iter().all(|row| row[0] != CALL);
    graphs().into_iter().filter(core)
}

fn var(width: u64) -> [u64; 5] {
    [VAR, width, 0, 0, 0]
}

/// Variables and constants; a row above the ceiling before another one, before
/// and behind one that is ill-formed anyway, and before one that is narrow again.
fn leaves() -> Vec<Known> {
    let constant = |start, width| [CONST, start, width, 0, 0];
    vec![
        known(&[var(CEILING)], &[CEILING]),
        known(&[var(OVER)], &[]),
        known(&[var(1 << 32)], &[]),
        known(&[var(1 << 63)], &[]),
        known(&[var(MAX)], &[]),
        known(&[constant(0, CEILING)], &[CEILING]),
        known(&[constant(1, CEILING)], &[CEILING]),
        known(&[constant(0, OVER)], &[]),
        known(&[var(OVER), var(OVER)], &[]),
        known(&[var(OVER), var(0)], &[]),
        known(&[var(8), var(0), var(OVER)], &[8]),
        known(&[var(OVER), [EXTRACT, 7, 0, 0, 0]], &[]),
    ]
}

/// Concats, and the widest Extract.
fn sums() -> Vec<Known> {
    let concat = |a, b| [CONCAT, a, b, 0, 0];
    let extract = |high| [EXTRACT, high, 0, 0, 0];
    let top = CEILING;
    vec![
        known(&[var(top - 1), var(1), concat(0, 1)], &[top - 1, 1, top]),
        known(&[var(top), var(1), concat(0, 1)], &[top, 1]),
        known(&[var(top), var(1), concat(1, 0)], &[top, 1]),
        known(&[var(HALF), concat(0, 0)], &[HALF, top]),
        known(&[var(HALF), var(HALF + 1), concat(0, 1)], &[HALF, HALF + 1]),
        known(&[var(top), concat(0, 0)], &[top]),
        known(&[var(top), extract(top - 1)], &[top, top]),
        known(&[var(top), extract(top)], &[top]),
    ]
}

/// Extensions, also by words with which the sum wraps to a good width.
fn extensions(tag: u64) -> Vec<Known> {
    let by = |by| [tag, 0, by, 0, 0];
    vec![
        known(&[var(CEILING), by(0)], &[CEILING, CEILING]),
        known(&[var(CEILING), by(1)], &[CEILING]),
        known(&[var(1), by(CEILING - 1)], &[1, CEILING]),
        known(&[var(1), by(CEILING)], &[1]),
        known(&[var(8), by(MAX - 8)], &[8]),
        known(&[var(8), by(MAX)], &[8]),
        known(&[var(CEILING), by(MAX)], &[CEILING]),
    ]
}
