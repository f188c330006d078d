//! Every operator on pairs of operands: all pairs at widths up to 5, all pairs
//! of edges at each width up to 64. One graph holds one pair and all tags.

use crate::operands::{edges, highest};
use crate::operation::Lists;
use crate::tags::*;
use crate::tiny::Visit;
use crate::values::VALUES;

/// Up to this width all operands are taken.
const SMALL: u64 = 5;

/// Visits every graph; false when the visitor stopped it.
pub fn each(visit: &mut Visit) -> bool {
    (1..=64).all(|width| {
        let words = if width <= SMALL {
            (0..=highest(width)).collect()
        } else {
            edges(width)
        };
        pairs(width, &words, visit)
    })
}

/// Every pair of these words, as variables and as constants.
fn pairs(width: u64, words: &[u64], visit: &mut Visit) -> bool {
    let pairs = words
        .iter()
        .flat_map(|&a| words.iter().map(move |&b| (a, b)));
    pairs.enumerate().all(|(number, (a, b))| {
        // At small widths each pair both ways, else in turn.
        let both = width <= SMALL;
        let constants = number % 2 == 1;
        visit(&VALUES, &graph(width, [a, b], constants))
            && (!both || visit(&VALUES, &graph(width, [a, b], !constants)))
    })
}

/// The two operands, then a row for each tag over them.
fn graph(width: u64, operands: [u64; 2], constants: bool) -> Lists {
    let (mut rows, mut bits, mut given) = (Vec::new(), Vec::new(), Vec::new());
    for word in operands {
        if constants {
            rows.push([CONST, bits.len() as u64, width, 0]);
            bits.extend((0..width).map(|k| word >> k & 1));
            given.push(!word);
        } else {
            rows.push([VAR, width, 0, 0]);
            given.push(word);
        }
    }
    rows.extend(pair_tags().map(|tag| [tag, 0, 1, 0]));
    rows.extend(other_rows(&rows, width));
    given.resize(rows.len(), u64::MAX);
    let lent = vec![0xa5a5; rows.len() + 1];
    vec![rows.concat(), bits, given, lent.clone(), lent]
}

/// Rows of the tags that do not take two operands of any one width.
fn other_rows(before: &[[u64; 4]], width: u64) -> Vec<[u64; 4]> {
    let row_of = |tag| before.iter().position(|row| row[0] == tag).unwrap_or(0) as u64;
    let (equal, below) = (row_of(EQ), row_of(ULT));
    let (top, room) = (width - 1, 64 - width);
    let mut rows = vec![
        [BV_NOT, 0, 0, 0],
        [NEG, 0, 0, 0],
        [NOT, below, 0, 0],
        [BOOL_AND, equal, below, 0],
        [BOOL_OR, equal, below, 0],
        [ITE, below, 0, 1],
        [EXTRACT, top, 0, 0],
        [EXTRACT, top, top, 0],
        [EXTRACT, top, top / 2, 0],
        [EXTRACT, top / 2, 0, 1],
    ];
    for tag in [ZERO_EXT, SIGN_EXT] {
        rows.extend([0, 1, room].map(|by| [tag, 0, by.min(room), 0]));
    }
    let parts = [(0, 1), (0, equal), (below, 1)];
    let widths = [2 * width, width + 1, width + 1];
    let fitting = parts.iter().zip(widths).filter(|(_, sum)| *sum <= 64);
    rows.extend(fitting.map(|(&(a, b), _)| [CONCAT, a, b, 0]));
    rows
}
