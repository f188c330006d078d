//! Cases of a first edition as cases with a sort table, and back.

use std::collections::BTreeSet;

use crate::check::at;
use crate::operation::Lists;
use crate::rules::SOURCE;
use crate::sorts::{Edition, ENTRY, FIRST};
use crate::tags::SELECT;

/// The arrays that Selects and read entries name; a list of reads stands before a sort
/// table of Check.
fn arrays(lists: &Lists, place: usize) -> BTreeSet<u64> {
    let rows = lists[at::SOURCE].chunks(SOURCE.row);
    let selects = rows.filter(|row| row[0] == SELECT);
    let reads = match place {
        at::SORTS => lists[at::READS].chunks(3),
        _ => [].chunks(3),
    };
    let named = selects.chain(reads).filter_map(|words| words.get(1));
    named.copied().collect()
}

/// A case of a first edition with a table, put at this place, that lists 32 and 8 for each
/// array that it names.
pub fn sorted(lists: &Lists, place: usize) -> Lists {
    let [index, cell] = FIRST;
    let listed = arrays(lists, place).into_iter();
    let table = listed.flat_map(|array| [array, index, cell]).collect();
    let mut sorted = lists.clone();
    sorted.insert(place, table);
    sorted
}

/// The case without the table at this place, if the table is good, says 32 and 8 of every
/// array and lists all that are named.
pub fn unsorted(lists: &Lists, place: usize) -> Option<Lists> {
    let edition = Edition::Second(&lists[place]);
    let mut entries = lists[place].chunks(ENTRY);
    let good = edition.refused().is_none()
        && entries.all(|entry| entry[1..] == FIRST)
        && (arrays(lists, place).into_iter()).all(|array| edition.shape(array).is_some());
    let mut first = lists.clone();
    first.remove(place);
    good.then_some(first)
}
