//! What a run has met at the ceiling: who answered, the Rust or the rule, and by
//! tag the rows that just reach it and those that pass it. Where functions are told
//! apart by their widths, another rule answered; functioncounts.rs has those cases. So it
//! is in operations with a sort table, and they count nothing here.

use crate::operation::{Lists, Operation};
use crate::ours::Answer;
use crate::rules::{self, Graph, Judged, CEILING, SOURCE};
use crate::tags::{TAGS, WIDENING};

pub struct CeilingCounts {
    /// Cases that the Rust answered, and those that the rule did.
    rust: u64,
    rule: u64,
    graphs: Vec<Rows>,
}

/// By tag, in the order of `WIDENING`.
type ByTag = [u64; WIDENING.len()];

/// Rows of one graph.
struct Rows {
    place: usize,
    graph: Graph,
    /// As wide as the ceiling, in graphs that are well formed.
    taken: ByTag,
    /// Wider, and refused for that.
    refused: ByTag,
}

impl CeilingCounts {
    pub fn new(operation: &dyn Operation) -> CeilingCounts {
        let rows = |(place, graph)| Rows {
            place,
            graph,
            taken: ByTag::default(),
            refused: ByTag::default(),
        };
        let graphs = match operation.sorts() {
            None => rules::graphs(operation.lists()),
            Some(_) => Vec::new(),
        };
        CeilingCounts {
            rust: 0,
            rule: 0,
            graphs: graphs.into_iter().map(rows).collect(),
        }
    }

    /// Counts a case. 15 to 18 come before the Rust is asked; after 21 the graph
    /// is known to be well formed, as after acceptance. Where functions are told
    /// apart neither the Rust nor the ceiling answered.
    pub fn count(&mut self, lists: &Lists, answer: Answer, told_apart: bool) {
        let mut graphs = self.graphs.iter_mut();
        let by_rule = match answer.number {
            15..=18 => return,
            0 | 21 => {
                graphs.for_each(|rows| rows.count_taken(lists));
                false
            }
            number => graphs.any(|rows| rows.graph.number == number && rows.count_refused(lists)),
        };
        self.rule += u64::from(by_rule);
        self.rust += u64::from(!by_rule && !told_apart);
    }

    pub fn print(&self) {
        if self.graphs.is_empty() {
            return;
        }
        println!("  with the Rust: {:8}", self.rust);
        println!("  above the ceiling, by the rule: {:8}", self.rule);
        for rows in &self.graphs {
            let name = rows.name();
            println!("  {name} rows of 4,096 bits: {}", rows.shown(&rows.taken));
            println!("  {name} rows above: {}", rows.shown(&rows.refused));
        }
    }

    /// Everything that must come, with its count.
    pub fn due(&self) -> Vec<(u64, String)> {
        let mut due = Vec::new();
        if !self.graphs.is_empty() {
            due.push((self.rust, "an answer of the Rust".to_string()));
            due.push((self.rule, "an answer of the ceiling".to_string()));
        }
        for rows in &self.graphs {
            for (k, tag) in rows.tags().enumerate() {
                let row = format!("{} {tag}", rows.name());
                due.push((rows.taken[k], format!("a {row} of 4,096 bits, taken,")));
                due.push((rows.refused[k], format!("a {row} above the ceiling")));
            }
        }
        due
    }
}

impl Rows {
    fn name(&self) -> &'static str {
        if self.graph.number == SOURCE.number {
            "source"
        } else {
            "target"
        }
    }

    /// The names of the tags that the graph can have.
    fn tags(&self) -> impl Iterator<Item = &'static str> {
        let most = self.graph.tags;
        let known = WIDENING.into_iter().filter(move |&tag| tag < most);
        known.map(|tag| TAGS[tag as usize].0)
    }

    fn shown(&self, counts: &ByTag) -> String {
        let shown = self.tags().zip(counts);
        let shown: Vec<String> = shown.map(|(tag, count)| format!("{tag} {count}")).collect();
        shown.join(", ")
    }

    /// The place of a row's tag in `WIDENING`.
    fn tag(&self, lists: &Lists, row: usize) -> Option<usize> {
        let tag = lists[self.place][row * self.graph.row];
        WIDENING.iter().position(|&known| known == tag)
    }

    fn count_taken(&mut self, lists: &Lists) {
        let Judged::Widths(widths) = rules::judged(self.graph, lists, self.place) else {
            return;
        };
        for (row, _) in widths.iter().enumerate().filter(|(_, &w)| w == CEILING) {
            if let Some(tag) = self.tag(lists, row) {
                self.taken[tag] += 1;
            }
        }
    }

    /// Counts the row that a graph is refused for; false if the Rust refused it.
    fn count_refused(&mut self, lists: &Lists) -> bool {
        let Judged::Above(row) = rules::judged(self.graph, lists, self.place) else {
            return false;
        };
        if let Some(tag) = self.tag(lists, row as usize) {
            self.refused[tag] += 1;
        }
        true
    }
}
