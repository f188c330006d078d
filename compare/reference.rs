//! The published Rust, unchanged, called on words.
//!
//! Words are turned into its nodes by the row's tag. This is done only after
//! the rules 15 to 18 found nothing, so each tag is known.

use kernel::blast_kernel::{aig_new, encode, eval_lit, simulate, DagNode, Lit};
use kernel::sliver_kernel::{check_sliver_lowering, ext_wf, ExtNode, SliverCheckError};
use kernel::{dag_wf, roots_wf, QueryError};

use crate::check::at;
use crate::operation::Lists;
use crate::ours::Answer;
use crate::plain;
use crate::rules::{answer, ACCEPTED};
use crate::tags::{CALL, SELECT};

/// The core node of a row: its tag and its first three fields.
pub fn dag_node(row: &[u64]) -> DagNode {
    let (a, b, c) = (row[1] as usize, row[2] as usize, row[3] as usize);
    match row[0] {
        0 => DagNode::Var(a),
        1 => DagNode::Const(a, b),
        2 => DagNode::Add(a, b),
        3 => DagNode::Sub(a, b),
        4 => DagNode::Mul(a, b),
        5 => DagNode::Udiv(a, b),
        6 => DagNode::Urem(a, b),
        7 => DagNode::And(a, b),
        8 => DagNode::Or(a, b),
        9 => DagNode::Xor(a, b),
        10 => DagNode::Shl(a, b),
        11 => DagNode::Lshr(a, b),
        12 => DagNode::Ashr(a, b),
        13 => DagNode::Rotr(a, b),
        14 => DagNode::Extract(a, b, c),
        15 => DagNode::Concat(a, b),
        16 => DagNode::ZeroExt(a, b),
        17 => DagNode::SignExt(a, b),
        18 => DagNode::Ite(a, b, c),
        19 => DagNode::Eq(a, b),
        20 => DagNode::Ne(a, b),
        21 => DagNode::Ult(a, b),
        22 => DagNode::Ule(a, b),
        23 => DagNode::Ugt(a, b),
        24 => DagNode::Uge(a, b),
        25 => DagNode::Slt(a, b),
        26 => DagNode::Sle(a, b),
        27 => DagNode::Sgt(a, b),
        28 => DagNode::Sge(a, b),
        29 => DagNode::Not(a),
        30 => DagNode::BoolAnd(a, b),
        31 => DagNode::BoolOr(a, b),
        32 => DagNode::BvNot(a),
        33 => DagNode::Neg(a),
        34 => DagNode::Rotl(a, b),
        35 => DagNode::Sdiv(a, b),
        36 => DagNode::Srem(a, b),
        tag => panic!("no core node has the tag {tag}"),
    }
}

/// The extended node of a source row.
pub fn ext_node(row: &[u64]) -> ExtNode {
    let field = |k: usize| row[k] as usize;
    match row[0] {
        SELECT => ExtNode::Select(field(1), field(2), field(3), field(4)),
        CALL => ExtNode::Call(field(1), field(2), field(3), field(4)),
        _ => ExtNode::Core(dag_node(row)),
    }
}

pub fn dag_nodes(target: &[u64]) -> Vec<DagNode> {
    target.chunks_exact(4).map(dag_node).collect()
}

pub fn ext_nodes(source: &[u64]) -> Vec<ExtNode> {
    source.chunks_exact(5).map(ext_node).collect()
}

pub fn sizes(words: &[u64]) -> Vec<usize> {
    words.iter().map(|&w| w as usize).collect()
}

fn words(sizes: Vec<usize>) -> Vec<u64> {
    sizes.into_iter().map(|w| w as u64).collect()
}

/// The widths of a source's rows, or the first row that `ext_wf` refuses.
pub fn source_widths(source: &[u64], bits: usize, side: &[u64]) -> Result<Vec<u64>, u64> {
    match ext_wf(&ext_nodes(source), bits, &sizes(side)) {
        Ok(widths) => Ok(words(widths)),
        Err(SliverCheckError::Ext { node }) => Err(node as u64),
        Err(other) => panic!("ext_wf refused with {other:?}"),
    }
}

/// The widths of a target's rows, or the first row that `dag_wf` refuses.
pub fn target_widths(target: &[u64], bits: usize) -> Result<Vec<u64>, u64> {
    match dag_wf(&dag_nodes(target), bits) {
        Ok(widths) => Ok(words(widths)),
        Err(QueryError::NodeNotWellFormed { node }) => Err(node as u64),
        Err(other) => panic!("dag_wf refused with {other:?}"),
    }
}

pub fn flags(bits: &[u64]) -> Vec<bool> {
    bits.iter().map(|&b| b == 1).collect()
}

/// The primary inputs: the bits of each variable's word, lowest first.
fn inputs(nodes: &[DagNode], given: &[u64]) -> Vec<bool> {
    let bits = |(node, &word): (&DagNode, &u64)| {
        let width = if let DagNode::Var(w) = *node { w } else { 0 };
        (0..width).map(move |k| word >> k & 1 == 1)
    };
    nodes.iter().zip(given).flat_map(bits).collect()
}

/// The values of a well-formed target's rows by the published gates: encoded,
/// simulated, and each row's word read back. No row is wider than 64 bits.
pub fn gate_values(target: &[u64], bits: &[u64], given: &[u64]) -> Vec<u64> {
    let nodes = dag_nodes(target);
    let mut gates = aig_new();
    let (rows, _) = encode(&mut gates, &nodes, &flags(bits), &[]);
    let simulated = simulate(&gates, &inputs(&nodes, given));
    let bit = |lit: Lit| u64::from(eval_lit(&simulated, lit));
    rows.iter()
        .map(|row| row.iter().rev().fold(0, |word, &lit| word << 1 | bit(lit)))
        .collect()
}

/// The same by plain arithmetic.
pub fn plain_values(target: &[u64], bits: &[u64], widths: &[u64], given: &[u64]) -> Vec<u64> {
    plain::values(&dag_nodes(target), &flags(bits), &sizes(widths), given)
}

/// Nothing, or the first position that `roots_wf` refuses.
pub fn roots(widths: &[u64], roots: &[u64]) -> Result<(), u64> {
    match roots_wf(&sizes(widths), &sizes(roots)) {
        Ok(()) => Ok(()),
        Err(QueryError::BadRoot { root }) => Err(root as u64),
        Err(other) => panic!("roots_wf refused with {other:?}"),
    }
}

/// 19 by `roots_wf`, where both graphs are well formed: the first root of the source
/// that it refuses, or else the first of the target.
pub fn bad_root(lists: &Lists) -> Option<Answer> {
    let bits = |place: usize| lists[place].len();
    let source = source_widths(&lists[at::SOURCE], bits(at::SOURCE_BITS), &lists[at::SIDE]).ok()?;
    let target = target_widths(&lists[at::TARGET], bits(at::TARGET_BITS)).ok()?;
    let graphs = [(1, source, at::SOURCE_ROOTS), (2, target, at::TARGET_ROOTS)];
    graphs.into_iter().find_map(|(detail, widths, list)| {
        let position = roots(&widths, &lists[list]).err()?;
        Some(answer(19, position, detail))
    })
}

/// So many lists are read in a first edition.
const FIRST_LISTS: usize = at::SORTS;

/// What `check_sliver_lowering` takes, made of words.
pub struct Sliver {
    source: Vec<ExtNode>,
    source_bits: Vec<bool>,
    /// The lists of words; the graphs' and bits' places stay empty.
    words: Vec<Vec<usize>>,
    target: Vec<DagNode>,
    target_bits: Vec<bool>,
}

impl Sliver {
    pub fn of(lists: &Lists) -> Sliver {
        let graphs = [at::SOURCE, at::SOURCE_BITS, at::TARGET, at::TARGET_BITS];
        let words = |place: usize| {
            if graphs.contains(&place) {
                Vec::new()
            } else {
                sizes(&lists[place])
            }
        };
        Sliver {
            source: ext_nodes(&lists[at::SOURCE]),
            source_bits: flags(&lists[at::SOURCE_BITS]),
            words: (0..FIRST_LISTS).map(words).collect(),
            target: dag_nodes(&lists[at::TARGET]),
            target_bits: flags(&lists[at::TARGET_BITS]),
        }
    }

    pub fn check(&self) -> Result<(), SliverCheckError> {
        check_sliver_lowering(
            &self.source,
            &self.source_bits,
            &self.words[at::SIDE],
            &self.words[at::SOURCE_ROOTS],
            &self.words[at::MAP],
            &self.words[at::READS],
            &self.words[at::CALLS],
            &self.words[at::ARGUMENTS],
            &self.target,
            &self.target_bits,
            &self.words[at::TARGET_ROOTS],
        )
    }

    /// Does `roots_wf` take both root lists, over the widths of the graphs?
    pub fn roots(&self, widths: &[Vec<usize>; 2]) -> bool {
        let lists = [at::SOURCE_ROOTS, at::TARGET_ROOTS];
        (widths.iter().zip(lists)).all(|(widths, list)| roots_wf(widths, &self.words[list]).is_ok())
    }

    /// The widths of both graphs, if they are well formed.
    pub fn widths(&self) -> Option<[Vec<usize>; 2]> {
        let side = &self.words[at::SIDE];
        let source = ext_wf(&self.source, self.source_bits.len(), side).ok()?;
        let target = dag_wf(&self.target, self.target_bits.len()).ok()?;
        Some([source, target])
    }
}

/// What `check_sliver_lowering` answers, as the scope's number, place and
/// detail.
pub fn check(lists: &Lists) -> Answer {
    let verdict = Sliver::of(lists).check();
    let Err(error) = verdict else {
        return ACCEPTED;
    };
    let at = |number: u64, place: usize| answer(number, place as u64, 0);
    match error {
        SliverCheckError::Ext { node } => at(1, node),
        SliverCheckError::Core(QueryError::NodeNotWellFormed { node }) => at(2, node),
        SliverCheckError::Core(other) => panic!("dag_wf refused with {other:?}"),
        SliverCheckError::MapLength { expected, found } => answer(3, expected as u64, found as u64),
        SliverCheckError::MapOutOfRange { node } => at(4, node),
        SliverCheckError::ReadTable { entry } => at(5, entry),
        SliverCheckError::CallTable { entry } => at(6, entry),
        SliverCheckError::VarClass { node } => at(7, node),
        SliverCheckError::ConstMismatch { node } => at(8, node),
        SliverCheckError::NodeMismatch { node } => at(9, node),
        SliverCheckError::ChainMismatch { node } => at(10, node),
        SliverCheckError::CallMismatch { node } => at(11, node),
        SliverCheckError::RootMismatch => answer(12, root_place(lists), 0),
        SliverCheckError::CongruenceMismatch { root } => at(13, root),
        SliverCheckError::DeadEntry { var } => at(14, var),
    }
}

/// The place of 12, which the Rust does not name: the first source root that
/// has no image, or another root or none in its place; 0 for roots left over.
fn root_place(lists: &Lists) -> u64 {
    let image = |root: u64| *lists[at::MAP].get(root as usize).unwrap_or(&u64::MAX);
    let images = lists[at::SOURCE_ROOTS].iter().map(|&root| image(root));
    let bad = |(place, image): (usize, u64)| {
        image == u64::MAX || lists[at::TARGET_ROOTS].get(place) != Some(&image)
    };
    images.enumerate().position(bad).unwrap_or(0) as u64
}

/// The widths of both graphs of an accepted lowering.
pub fn check_widths(lists: &Lists) -> [Vec<u64>; 2] {
    let bits = |place: usize| lists[place].len();
    let source = source_widths(&lists[at::SOURCE], bits(at::SOURCE_BITS), &lists[at::SIDE]);
    let target = target_widths(&lists[at::TARGET], bits(at::TARGET_BITS));
    [source, target].map(|widths| widths.expect("an accepted graph is well formed"))
}
