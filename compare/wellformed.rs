//! Well-formedness after the scope's text, without the published Rust: the width
//! of each row, if it is well formed.

use crate::operation::Lists;
use crate::sorts::{Asked, Edition, Sorts};
use crate::tags::*;

/// No row has more bits.
const MOST: u64 = 4_096;

/// Tag and four fields.
pub type Row = [u64; 5];

/// The rows of a graph, each as five words.
pub fn rows(words: &[u64], size: usize) -> Vec<Row> {
    let row = |words: &[u64]| {
        let mut row = [0; 5];
        row[..size].copy_from_slice(words);
        row
    };
    words.chunks_exact(size).map(row).collect()
}

/// The item that a word names, if there is one.
pub fn at<T: Copy>(list: &[T], place: u64) -> Option<T> {
    list.get(usize::try_from(place).ok()?).copied()
}

/// The words from `start` on, `count` of them, if the list has them.
pub fn stretch(list: &[u64], start: u64, count: u64) -> Option<&[u64]> {
    let end = usize::try_from(start.checked_add(count)?).ok()?;
    list.get(usize::try_from(start).ok()?..end)
}

/// The widths of the graph at a place of the lists, its bits and a source's side
/// list behind it, if it is well formed.
pub fn widths(lists: &Lists, place: usize, size: usize) -> Option<Vec<u64>> {
    let (rows, bits) = (rows(&lists[place], size), lists[place + 1].len());
    let memory = match size {
        5 => Memory::of(&lists[place + 2], Edition::of_source(lists)),
        _ => Memory::NONE,
    };
    row_widths(&rows, bits, memory).ok()
}

/// What a source has beside its rows and bits.
#[derive(Clone, Copy)]
pub struct Memory<'l> {
    side: &'l [u64],
    edition: Edition<'l>,
    sorts: Sorts,
}

impl<'l> Memory<'l> {
    /// That of a target.
    pub const NONE: Memory<'static> = Memory {
        side: &[],
        edition: Edition::First,
        sorts: Sorts::Right,
    };

    pub fn of(side: &'l [u64], edition: Edition<'l>) -> Memory<'l> {
        Memory::by(Sorts::Right, side, edition)
    }

    /// The same where this rule gives arrays their shapes.
    pub fn by(sorts: Sorts, side: &'l [u64], edition: Edition<'l>) -> Memory<'l> {
        Memory {
            side,
            edition,
            sorts,
        }
    }
}

/// The widths of a graph's rows, or the first row that is not well formed.
pub fn row_widths(rows: &[Row], bits: usize, memory: Memory) -> Result<Vec<u64>, u64> {
    let mut widths = Vec::new();
    for &row in rows {
        match width(row, &widths, bits as u64, memory) {
            Some(width) if width <= MOST => widths.push(width),
            _ => return Err(widths.len() as u64),
        }
    }
    Ok(widths)
}

/// The width of a row over earlier rows of these widths, if it is well formed;
/// it may be too wide.
fn width([tag, a, b, c, d]: Row, widths: &[u64], bits: u64, memory: Memory) -> Option<u64> {
    let side = memory.side;
    let of = |row: u64| at(widths, row);
    let alike = |a: u64, b: u64| of(a).filter(|&w| of(b) == Some(w));
    let shape = |asked: Asked| memory.sorts.shape(memory.edition, a, asked);
    let pair = |l: u64| {
        let place = 2 * l + c;
        let [index, value] = [at(side, place)?, at(side, place + 1)?];
        (shape(Asked::Pair)? == [of(index)?, of(value)?]).then_some(())
    };
    match tag {
        VAR => (a > 0).then_some(a),
        CONST => (b > 0 && a.checked_add(b)? <= bits).then_some(b),
        EXTRACT => (b <= a && a < of(c)?).then(|| a - b + 1),
        CONCAT => of(a)?.checked_add(of(b)?),
        ZERO_EXT | SIGN_EXT => of(a)?.checked_add(b),
        ITE => alike(b, c).filter(|_| of(a) == Some(1)),
        EQ..=SGE => alike(a, b).map(|_| 1),
        NOT => of(a).filter(|&w| w == 1),
        BOOL_AND | BOOL_OR => alike(a, b).filter(|&w| w == 1),
        BV_NOT | NEG => of(a),
        SELECT => {
            let [index, cell] = shape(Asked::Select)?;
            let fits = d == 0 || c < side.len() as u64 && (0..d).all(|l| pair(l).is_some());
            (of(b)? == index && fits).then_some(cell)
        }
        CALL => {
            let fits = d == 0 || stretch(side, c, d)?.iter().all(|&row| of(row).is_some());
            (b > 0 && fits).then_some(b)
        }
        _ => alike(a, b),
    }
}
