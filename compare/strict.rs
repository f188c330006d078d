//! The step that the strict check has more: every root is a row of one bit. The rule
//! stands here as restated.rs asks it, with wrong rules that a run must notice.

use crate::ours::Answer;
use crate::restated::Check;
use crate::rules::answer;
use crate::wellformed::at;

/// What the roots of both graphs are looked at for.
#[derive(Clone, Copy, PartialEq, Eq)]
pub enum Strict {
    /// Nothing, as in Check.
    No,
    Right,
    TargetFirst,
    AfterMapLength,
    AnyWidth,
    AnyRow,
    Exchanged,
    FirstAlone,
    SourceAlone,
    SourceWidths,
}

/// The wrong rules, each with what is wrong about it.
pub const WRONG: [(Strict, &str); 9] = [
    (Strict::No, "roots not looked at, as in Check"),
    (
        Strict::TargetFirst,
        "roots of the target before the source's",
    ),
    (Strict::AfterMapLength, "roots looked at after 3"),
    (Strict::AnyWidth, "roots of any width, if they are rows"),
    (Strict::AnyRow, "roots past the rows taken"),
    (Strict::Exchanged, "details of 19 exchanged"),
    (Strict::FirstAlone, "of each list only the first root"),
    (Strict::SourceAlone, "of the source alone"),
    (
        Strict::SourceWidths,
        "roots of the target by the source's widths",
    ),
];

/// What has been judged before.
#[derive(Clone, Copy, PartialEq, Eq)]
pub enum Step {
    Widths,
    MapLength,
}

impl Strict {
    /// The rule of a check, strict or not.
    pub fn of(strict: bool) -> Strict {
        match strict {
            false => Strict::No,
            true => Strict::Right,
        }
    }

    /// Are the roots looked at behind this step?
    fn looks_after(self, step: Step) -> bool {
        match self {
            Strict::No => false,
            Strict::AfterMapLength => step == Step::MapLength,
            _ => step == Step::Widths,
        }
    }

    /// Is a root refused whose row has this width, or which is no row?
    fn refuses(self, width: Option<u64>) -> bool {
        match (self, width) {
            (Strict::AnyWidth, Some(_)) | (Strict::AnyRow, None) => false,
            (_, width) => width != Some(1),
        }
    }
}

impl Check<'_> {
    /// 19 behind the step where the rule has it: the first root of the source that is no
    /// row of one bit, with detail 1; if there is none, the first of the target, with 2.
    pub fn strict_roots(&self, step: Step) -> Result<(), Answer> {
        if !self.rules.strict.looks_after(step) {
            return Ok(());
        }
        let [source, target] = &self.widths;
        let mut graphs = vec![
            (1, self.source_roots, source),
            (2, self.target_roots, target),
        ];
        match self.rules.strict {
            Strict::TargetFirst => graphs.reverse(),
            Strict::Exchanged => (graphs[0].0, graphs[1].0) = (2, 1),
            Strict::SourceAlone => graphs.truncate(1),
            Strict::SourceWidths => graphs[1].2 = source,
            _ => {}
        }
        for (detail, roots, widths) in graphs {
            let refused = |&root: &u64| self.rules.strict.refuses(at(widths, root));
            let place = roots.iter().position(refused);
            match place {
                Some(place) if place == 0 || self.rules.strict != Strict::FirstAlone => {
                    return Err(answer(19, place as u64, detail));
                }
                _ => {}
            }
        }
        Ok(())
    }
}
