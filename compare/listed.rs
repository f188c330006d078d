//! The fixed list's cases of values that are chosen, not random: each operator
//! at a few widths, over operands at the edges.

use crate::operands::highest;
use crate::operation::Lists;
use crate::tags::*;

const WIDTHS: [u64; 4] = [1, 8, 63, 64];

/// So many operator rows stand in a graph, behind their operands.
const GROUP: usize = 12;

/// All these cases.
pub fn cases() -> Vec<Lists> {
    let mut cases = vec![marked()];
    cases.extend(refusals());
    for width in WIDTHS {
        let pairs: Vec<Application> = pair_tags()
            .flat_map(|tag| operands(tag, width).into_iter().map(move |ab| (tag, ab)))
            .collect();
        for (number, group) in pairs.chunks(GROUP).enumerate() {
            cases.push(pair_case(width, group, number % 3 == 0));
        }
        cases.push(other_case(width));
    }
    cases
}

/// A tag and the words of its two operands.
type Application = (u64, [u64; 2]);

/// The scope's marked case 12.
fn marked() -> Lists {
    let group = [
        (SDIV, [128, 255]),
        (SDIV, [200, 0]),
        (SDIV, [5, 0]),
        (SREM, [249, 2]),
        (ROTR, [1, 9]),
    ];
    pair_case(8, &group, false)
}

/// The pairs of operands that a tag gets, without repetitions.
fn operands(tag: u64, width: u64) -> Vec<[u64; 2]> {
    let top = highest(width);
    let (most, least) = (top / 2, top / 2 + 1);
    let (any, other) = (0xb5a1_97c3_e64f_2d8b & top, 0x1234_5678_9abc_def3 & top);
    let mut pairs = match tag {
        ADD..=MUL => vec![[top, 1], [least, least], [any, other]],
        UDIV | UREM => vec![[any, 0], [0, 0], [any, 3], [least, top], [top, other]],
        AND..=XOR => vec![[any, other]],
        SHL | LSHR | ASHR => vec![[any, 1], [any, width - 1], [any, width], [least, top]],
        ROTR | ROTL => vec![[any, 1], [any, width], [any, width + 1], [least, top]],
        EQ..=UGE => vec![[0, top], [any, any]],
        SLT..=SGE => vec![[least, most], [most, least], [top, top]],
        _ => vec![
            [least, 0],
            [most, 0],
            [least, top],
            [any, 3],
            [most, top - 1],
            [least, any],
        ],
    };
    pairs.iter_mut().flatten().for_each(|word| *word &= top);
    let mut distinct: Vec<[u64; 2]> = Vec::new();
    for pair in pairs {
        if !distinct.contains(&pair) {
            distinct.push(pair);
        }
    }
    distinct
}

/// A graph with the operands of a group, then its operators; the first operand
/// is a constant or a variable.
fn pair_case(width: u64, group: &[Application], constant: bool) -> Lists {
    let mut words: Vec<u64> = Vec::new();
    for word in group.iter().flat_map(|(_, pair)| pair) {
        if !words.contains(word) {
            words.push(*word);
        }
    }
    let row_of = |word: u64| words.iter().position(|&w| w == word).unwrap_or(0) as u64;
    let rows: Vec<[u64; 4]> = group
        .iter()
        .map(|&(tag, [a, b])| [tag, row_of(a), row_of(b), 0])
        .collect();
    case(width, &words, constant, &rows)
}

/// The operators of other shapes, over a negative and a positive operand.
fn other_case(width: u64) -> Lists {
    let (top, room) = (width - 1, 64 - width);
    let words = [highest(width) - highest(width) / 4, 1];
    let rows = [
        [BV_NOT, 0, 0, 0],
        [NEG, 0, 0, 0],
        [ULT, 1, 0, 0],
        [NOT, 4, 0, 0],
        [BOOL_AND, 4, 4, 0],
        [BOOL_OR, 4, 5, 0],
        [ITE, 4, 0, 1],
        [ITE, 5, 0, 1],
        [EXTRACT, top, top, 0],
        [EXTRACT, top - top / 4, top / 2, 0],
        [SIGN_EXT, 0, room, 0],
        [ZERO_EXT, 0, room, 0],
        [SIGN_EXT, 1, room.min(1), 0],
        [CONCAT, 4, 11, 0],
        [CONCAT, 11, 5, 0],
        [CONCAT, 0, 4, 0],
        [CONCAT, 4, 0, 0],
    ];
    // A row of 64 bits leaves no room for the last two.
    let end = if room > 0 { rows.len() } else { rows.len() - 2 };
    case(width, &words, false, &rows[..end])
}

/// Cases where two refusals apply, one for each step of their order, and both
/// sides of the edge of 23.
fn refusals() -> Vec<Lists> {
    let (byte, wide, bad) = ([VAR, 8, 0, 0], [VAR, 65, 0, 0], [VAR, 0, 0, 0]);
    let unknown = [SELECT, 0, 0, 0];
    let ragged = vec![VAR, 8, 0, 0, VAR];
    let with = |rows: &[[u64; 4]], bits: &[u64], given: &[u64], lent: [usize; 2]| {
        let [widths, values] = lent.map(|length| vec![7; length]);
        vec![rows.concat(), bits.to_vec(), given.to_vec(), widths, values]
    };
    vec![
        vec![ragged, vec![], vec![5], vec![], vec![]],
        with(&[byte, unknown], &[], &[5, 0], [1, 1]),
        with(&[byte, unknown], &[], &[5, 0], [2, 1]),
        with(&[bad, unknown], &[2], &[5, 0], [2, 2]),
        with(&[bad], &[0, 2], &[5], [1, 1]),
        with(&[wide, bad], &[], &[5, 5], [2, 2]),
        with(&[byte, wide], &[], &[5], [2, 2]),
        with(&[byte, wide], &[], &[256, 5], [2, 2]),
        with(&[byte, byte], &[], &[256], [2, 2]),
        with(&[byte], &[], &[256, 5], [1, 1]),
        with(&[byte, byte], &[], &[255, 256], [2, 3]),
        with(&[byte, [EQ, 0, 0, 0]], &[], &[255, 15], [3, 2]),
        with(&[[VAR, 63, 0, 0]], &[], &[1 << 63], [1, 1]),
        with(&[[VAR, 64, 0, 0]], &[], &[u64::MAX], [1, 1]),
        with(&[], &[], &[5], [1, 1]),
        with(&[], &[], &[], [1, 1]),
    ]
}

/// Operands of one width, then these rows; both lent lists are one word longer
/// than the rows.
fn case(width: u64, operands: &[u64], constant: bool, rows: &[[u64; 4]]) -> Lists {
    let mut all: Vec<[u64; 4]> = operands.iter().map(|_| [VAR, width, 0, 0]).collect();
    let mut given = operands.to_vec();
    let mut bits = Vec::new();
    if constant {
        all[0] = [CONST, 0, width, 0];
        bits = (0..width).map(|k| operands[0] >> k & 1).collect();
        given[0] = 5;
    }
    all.extend(rows);
    given.resize(all.len(), 6);
    let lent = vec![7; all.len() + 1];
    vec![all.concat(), bits, given, lent.clone(), lent]
}
