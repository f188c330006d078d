//! A case for a reader: each list under its name, each row with its tag's name.

use crate::operation::{Kind, Lists, Operation, Outcome, Pair};
use crate::ours::Answer;
use crate::tags::TAGS;

/// A disagreement: the input and the two outcomes.
pub fn disagreement(operation: &dyn Operation, pair: Pair, lists: &Lists) -> String {
    let (names, outcomes) = (pair.names(), pair.outcomes(operation, lists));
    let mut text = format!("{}, on this input:\n", operation.name());
    text += &input(operation, lists);
    for (name, outcome) in names.iter().zip(&outcomes) {
        text += &format!("{} {}\n", titled(name), shown(outcome.answer));
    }
    text + &differing(operation, names, &outcomes)
}

/// Each list under its name.
pub fn input(operation: &dyn Operation, lists: &Lists) -> String {
    let named = |(list, &(name, kind)): (&Vec<u64>, &(&str, Kind))| named(name, kind, list);
    lists.iter().zip(operation.lists()).map(named).collect()
}

/// A name with a colon, in a column.
fn titled(name: &str) -> String {
    format!("{:9}", format!("{name}:"))
}

fn shown(answer: Answer) -> String {
    format!(
        "number {}, place {}, detail {}",
        answer.number, answer.place, answer.detail
    )
}

/// The lists that are not as expected after the call.
fn differing(
    operation: &dyn Operation,
    names: [&'static str; 2],
    outcomes: &[Outcome; 2],
) -> String {
    let mut text = String::new();
    for (place, &(list, _)) in operation.lists().iter().enumerate() {
        if outcomes[0].lists[place] != outcomes[1].lists[place] {
            text += &format!("{list} after the call\n");
            for (name, outcome) in names.iter().zip(outcomes) {
                text += &format!("  {} {}\n", titled(name), words(&outcome.lists[place]));
            }
        }
    }
    if outcomes[0].strayed {
        text += "the call wrote beside a list that was lent to it\n";
    }
    text
}

fn named(name: &str, kind: Kind, list: &[u64]) -> String {
    let Kind::Rows(row) = kind else {
        return format!("  {name}: {}\n", words(list));
    };
    let mut text = format!("  {name}: {} words\n", list.len());
    for (number, words) in list.chunks(row).enumerate() {
        text += &format!("    row {number}: {}\n", shown_row(words));
    }
    text
}

/// A row as its tag's name and all its fields.
fn shown_row(row: &[u64]) -> String {
    let tag = match TAGS.get(usize::try_from(row[0]).unwrap_or(usize::MAX)) {
        Some((name, _)) => name.to_string(),
        None => format!("tag {}", word(row[0])),
    };
    format!("{tag} {}", words(&row[1..]))
}

fn words(list: &[u64]) -> String {
    let shown: Vec<String> = list.iter().map(|&w| word(w)).collect();
    format!("[{}]", shown.join(", "))
}

/// Small words in decimal, those near the edges by their distance, others in
/// hexadecimal.
fn word(word: u64) -> String {
    match word {
        u64::MAX => "MAX".to_string(),
        w if w > u64::MAX - 1000 => format!("MAX-{}", u64::MAX - w),
        w if w < 100_000 => w.to_string(),
        w => format!("{w:#x}"),
    }
}
