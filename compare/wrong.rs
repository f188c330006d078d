//! The wrong lines at the end of the fixed list: genuine lines with one change
//! each, which the program that replays the list must see.

use std::ops::Range;

/// What is changed in a line.
enum Part {
    /// Number, place or detail: 0, 1 or 2.
    Answer(usize),
    /// The last word of a lent list after the call.
    Lent(usize),
    /// A 0 in front of the first word, which no good line has.
    Text,
}

/// Operation, part, and the bits of the word that are turned. Each takes the
/// first genuine line of its operation that has such a word.
const CHANGES: [(u64, Part, u64); 10] = [
    (3, Part::Answer(0), 1),
    (6, Part::Answer(1), 1),
    (8, Part::Answer(2), 3),
    (10, Part::Lent(0), 1),
    (4, Part::Lent(1), 1),
    (9, Part::Answer(0), 19),
    (11, Part::Lent(2), 1),
    (12, Part::Lent(3), 1),
    (7, Part::Lent(0), 0x80),
    (2, Part::Text, 0),
];

/// The wrong lines, one for each change; none if a change has no line.
pub fn lines(genuine: &[String]) -> Option<Vec<String>> {
    let wrong = |(operation, part, bits): &(u64, Part, u64)| {
        genuine
            .iter()
            .find_map(|line| changed(line, *operation, part, *bits))
    };
    CHANGES.iter().map(wrong).collect()
}

/// The line with the change, if it is of the operation and has the part.
fn changed(line: &str, operation: u64, part: &Part, bits: u64) -> Option<String> {
    let read = |word: &str| u64::from_str_radix(word, 16).ok();
    let mut words: Vec<u64> = line.split(' ').map(read).collect::<Option<_>>()?;
    if words[0] != operation {
        return None;
    }
    let answer = lists(&words, 2, words[1]).last().map_or(2, |list| list.end);
    let place = match part {
        Part::Text => return Some(format!("0{line}")),
        Part::Answer(k) => answer + k,
        Part::Lent(k) => lists(&words, answer + 4, words[answer + 3])
            .nth(*k)
            .filter(|list| !list.is_empty())?
            .end
            .checked_sub(1)?,
    };
    words[place] ^= bits;
    let shown: Vec<String> = words.iter().map(|word| format!("{word:x}")).collect();
    Some(shown.join(" "))
}

/// Where so many lists stand, the first one's count at a place.
fn lists(words: &[u64], from: usize, count: u64) -> impl Iterator<Item = Range<usize>> + '_ {
    let mut at = from;
    (0..count).map(move |_| {
        let start = at + 1;
        at = start + words[at] as usize;
        start..at
    })
}
