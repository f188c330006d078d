//! What the scope adds to the published Rust: the refusals 15 to 18, 21 to 23 and 28,
//! their order, the ceiling of widths, and what a lent list holds after each
//! answer. Where a sort table is lent, the Rust is not asked.

use crate::check::at;
use crate::operation::{Kind, Lists};
use crate::ours::Answer;
use crate::reference;
use crate::sorts::{Edition, Sorts, Step};
use crate::tags::{TAGS, VAR};
use crate::wellformed::{row_widths, rows, Memory};

/// No row is wider.
pub const CEILING: u64 = 4096;

/// The two kinds of graph.
#[derive(Clone, Copy)]
pub struct Graph {
    /// 1 for a source, 2 for a target: its place in 15 and 18, its detail in
    /// 16 and 17, and the number of its own refusal.
    pub number: u64,
    /// Words in a row.
    pub row: usize,
    /// Tags from this one on are unknown.
    pub tags: u64,
}

pub const SOURCE: Graph = Graph {
    number: 1,
    row: 5,
    tags: 39,
};
pub const TARGET: Graph = Graph {
    number: 2,
    row: 4,
    tags: 37,
};

/// The graphs of an operation by the kinds of its lists, each with its place.
pub fn graphs(kinds: &[(&'static str, Kind)]) -> Vec<(usize, Graph)> {
    let graph = |(place, &(_, kind)): (usize, &(&str, Kind))| match kind {
        Kind::Rows(row) if row == SOURCE.row => Some((place, SOURCE)),
        Kind::Rows(_) => Some((place, TARGET)),
        _ => None,
    };
    kinds.iter().enumerate().filter_map(graph).collect()
}

pub const ACCEPTED: Answer = answer(0, 0, 0);

pub const fn answer(number: u64, place: u64, detail: u64) -> Answer {
    Answer {
        number,
        place,
        detail,
    }
}

/// 15: the word count is no multiple of the row.
pub fn row_count(graph: Graph, rows: &[u64]) -> Option<Answer> {
    (rows.len() % graph.row != 0).then(|| answer(15, graph.number, 0))
}

/// 18: the lent list, the `place`th in its operation, is shorter than its graph.
pub fn work_short(place: u64, graph: Graph, rows: &[u64], lent: &[u64]) -> Option<Answer> {
    (lent.len() < rows.len() / graph.row).then(|| answer(18, place, 0))
}

/// 16: the first row with an unknown tag or an unused field that is not 0.
pub fn bad_row(graph: Graph, rows: &[u64]) -> Option<Answer> {
    let bad = |row: &[u64]| {
        row[0] >= graph.tags || row[1 + TAGS[row[0] as usize].1..].iter().any(|&f| f != 0)
    };
    let place = rows.chunks_exact(graph.row).position(bad)?;
    Some(answer(16, place as u64, graph.number))
}

/// 17: the first bit byte above 1.
pub fn bad_bit(graph: Graph, bits: &[u64]) -> Option<Answer> {
    let place = bits.iter().position(|&b| b > 1)?;
    Some(answer(17, place as u64, graph.number))
}

/// The first of the four rules above that applies. The lent lists come with
/// their places.
fn added(graph: Graph, rows: &[u64], bits: &[u64], lent: &[(u64, &[u64])]) -> Option<Answer> {
    let short = |&(place, list): &(u64, &[u64])| work_short(place, graph, rows, list);
    row_count(graph, rows)
        .or_else(|| lent.iter().find_map(short))
        .or_else(|| bad_row(graph, rows))
        .or_else(|| bad_bit(graph, bits))
}

/// What is to be said about a graph's widths, and who says it.
pub enum Judged {
    /// The Rust: every row is well formed, and none passes the ceiling.
    Widths(Vec<u64>),
    /// The Rust: this row is ill-formed, and none before it passes the ceiling.
    Refused(u64),
    /// The rule: this row passes the ceiling, and the Rust takes all up to it.
    Above(u64),
}

/// The Rust about the graph at a place of the lists, held to the ceiling. Bits
/// stand behind their graph, a source's side list behind these.
pub fn judged(graph: Graph, lists: &Lists, place: usize) -> Judged {
    let (rows, bits) = (&lists[place], lists[place + 1].len());
    let ask = |rows: &[u64]| match graph.number {
        1 => reference::source_widths(rows, bits, &lists[place + 2]),
        _ => reference::target_widths(rows, bits),
    };
    let (widths, refused) = match ask(rows) {
        Ok(widths) => (widths, None),
        Err(row) => {
            let before = ask(&rows[..row as usize * graph.row]);
            let widths = before.expect("the rows before the first refused one are taken");
            (widths, Some(row))
        }
    };
    match (widths.iter().position(|&width| width > CEILING), refused) {
        (Some(row), _) => Judged::Above(row as u64),
        (None, Some(row)) => Judged::Refused(row),
        (None, None) => Judged::Widths(widths),
    }
}

/// The refusal of a case because a row passes the ceiling, if that is what the
/// scope asks for: graph by graph, the first that has a bad row.
pub fn above(kinds: &[(&'static str, Kind)], lists: &Lists) -> Option<Answer> {
    for (place, graph) in graphs(kinds) {
        match judged(graph, lists, place) {
            Judged::Widths(_) => {}
            Judged::Refused(_) => return None,
            Judged::Above(row) => return Some(answer(graph.number, row, 0)),
        }
    }
    None
}

/// The answer about a graph that stands first in the lists, and the widths that
/// an acceptance writes. The Rust is asked only when none of the four rules
/// above applies.
fn graph_answer(graph: Graph, lists: &Lists, added: Option<Answer>) -> (Answer, Vec<u64>) {
    if let Some(refusal) = added {
        return (refusal, Vec::new());
    }
    match judged(graph, lists, 0) {
        Judged::Widths(widths) => (ACCEPTED, widths),
        Judged::Refused(row) | Judged::Above(row) => (answer(graph.number, row, 0), Vec::new()),
    }
}

/// The answer of source widths or target widths, and the widths that an
/// acceptance writes. The lent list comes last.
pub fn widths(graph: Graph, lists: &Lists) -> (Answer, Vec<u64>) {
    let lent = &lists[lists.len() - 1];
    let added = added(graph, &lists[0], &lists[1], &[(graph.number, lent)]);
    graph_answer(graph, lists, added)
}

/// The same for source widths with sorts: after the four rules 28, then the definition
/// over the sort table.
pub fn widths_with_sorts(lists: &Lists) -> (Answer, Vec<u64>) {
    let edition = Edition::of_source(lists);
    let lent = &lists[lists.len() - 1];
    let refusal = added(SOURCE, &lists[0], &lists[1], &[(SOURCE.number, lent)]);
    if let Some(refusal) = refusal.or_else(|| edition.refused()) {
        return (refusal, Vec::new());
    }
    let memory = Memory::of(&lists[2], edition);
    match row_widths(&rows(&lists[0], SOURCE.row), lists[1].len(), memory) {
        Ok(widths) => (ACCEPTED, widths),
        Err(row) => (answer(SOURCE.number, row, 0), Vec::new()),
    }
}

/// The first of the four rules above that applies to Check, or 28 behind them. Each is
/// looked for in both graphs before the next.
pub fn check(lists: &Lists) -> Option<Answer> {
    check_by(Sorts::Right, lists)
}

/// The same where this rule says what 28 refuses, and where.
pub fn check_by(sorts: Sorts, lists: &Lists) -> Option<Answer> {
    let graphs = [
        (SOURCE, &lists[at::SOURCE], &lists[at::SOURCE_BITS]),
        (TARGET, &lists[at::TARGET], &lists[at::TARGET_BITS]),
    ];
    // The first lent list serves the source, the other three the target.
    let short = |place: usize| {
        let (graph, rows, _) = graphs[place.min(1)];
        work_short(
            place as u64 + 1,
            graph,
            rows,
            &lists[at::lent(lists) + place],
        )
    };
    let table = |step: Step| {
        let looked_at = sorts.step() == step;
        looked_at.then(|| sorts.refused(Edition::of(lists)))?
    };
    let mut counts = graphs
        .iter()
        .map(|&(graph, rows, _)| row_count(graph, rows));
    let mut rows = graphs.iter().map(|&(graph, rows, _)| bad_row(graph, rows));
    let mut bits = graphs.iter().map(|&(graph, _, bits)| bad_bit(graph, bits));
    (counts.find_map(|refusal| refusal))
        .or_else(|| (0..4).find_map(short))
        .or_else(|| rows.find_map(|refusal| refusal))
        .or_else(|| table(Step::BeforeBits))
        .or_else(|| bits.find_map(|refusal| refusal))
        .or_else(|| table(Step::BehindBits))
}

/// 21: the first row above 64 bits.
fn too_wide(widths: &[u64]) -> Option<Answer> {
    let row = widths.iter().position(|&w| w > 64)?;
    Some(answer(21, row as u64, 0))
}

/// 22: not one given word a row.
fn value_count(widths: &[u64], given: &[u64]) -> Option<Answer> {
    let (rows, words) = (widths.len() as u64, given.len() as u64);
    (rows != words).then(|| answer(22, rows, words))
}

/// 23: the first variable whose word has a one bit at its width or above.
fn value_range(rows: &[u64], widths: &[u64], given: &[u64]) -> Option<Answer> {
    let over = |row: usize| {
        rows[TARGET.row * row] == VAR && widths[row] < 64 && given[row] >> widths[row] != 0
    };
    let row = (0..widths.len()).find(|&row| over(row))?;
    Some(answer(23, row as u64, 0))
}

/// The answer of values, and the widths that an acceptance writes. The lists
/// are rows, bits, given words, widths and values.
pub fn values(lists: &Lists) -> (Answer, Vec<u64>) {
    let (rows, given) = (&lists[0], &lists[2]);
    let added = added(TARGET, rows, &lists[1], &[(1, &lists[3]), (2, &lists[4])]);
    let (answer, widths) = graph_answer(TARGET, lists, added);
    if answer != ACCEPTED {
        return (answer, widths);
    }
    let refusal = too_wide(&widths)
        .or_else(|| value_count(&widths, given))
        .or_else(|| value_range(rows, &widths, given));
    (refusal.unwrap_or(ACCEPTED), widths)
}

/// The memory rule: 15 and 18 write nothing, any other refusal zeroes the
/// list, acceptance leaves what it wrote and zeros after it.
pub fn lent_after(answer: Answer, before: &[u64], written: &[u64]) -> Vec<u64> {
    if answer.number == 15 || answer.number == 18 {
        return before.to_vec();
    }
    let mut after = vec![0; before.len()];
    if answer.number == 0 {
        after[..written.len()].copy_from_slice(written);
    }
    after
}
