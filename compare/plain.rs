//! The values of a target's rows by plain arithmetic on words, after the
//! scope's text. Widths are 1 to 64; a value is a word below 2^width.

use kernel::blast_kernel::DagNode;

/// A word of so many ones.
pub fn ones(width: usize) -> u64 {
    u64::MAX >> (64 - width)
}

/// The rows before the one at hand.
struct Before<'a> {
    widths: &'a [usize],
    values: &'a [u64],
}

/// The values of a well-formed graph without rows above 64 bits, where each
/// variable's word fits.
pub fn values(nodes: &[DagNode], bits: &[bool], widths: &[usize], given: &[u64]) -> Vec<u64> {
    let mut values = Vec::with_capacity(nodes.len());
    for (row, &node) in nodes.iter().enumerate() {
        let value = match node {
            DagNode::Var(_) => given[row],
            _ => value(node, bits, widths, &values),
        };
        values.push(value & ones(widths[row]));
    }
    values
}

/// The value of a row that is no variable, by those of the rows that it names; bits
/// above its width may be anything.
pub fn value(node: DagNode, bits: &[bool], widths: &[usize], values: &[u64]) -> u64 {
    match node {
        DagNode::Const(start, width) => constant(&bits[start..start + width]),
        _ => Before { widths, values }.value(node),
    }
}

/// The word of these bits, lowest first.
fn constant(bits: &[bool]) -> u64 {
    let add = |word, &bit| word << 1 | u64::from(bit);
    bits.iter().rev().fold(0, add)
}

impl Before<'_> {
    fn at(&self, row: usize) -> u64 {
        self.values[row]
    }

    /// A row's value as a signed number.
    fn signed(&self, row: usize) -> i64 {
        let unused = 64 - self.widths[row];
        ((self.values[row] << unused) as i64) >> unused
    }

    /// The value of a row with operands; bits above its width may be anything.
    fn value(&self, node: DagNode) -> u64 {
        match node {
            DagNode::Var(_) | DagNode::Const(..) => unreachable!("a leaf"),
            DagNode::Add(a, b) => self.at(a).wrapping_add(self.at(b)),
            DagNode::Sub(a, b) => self.at(a).wrapping_sub(self.at(b)),
            DagNode::Mul(a, b) => self.at(a).wrapping_mul(self.at(b)),
            DagNode::Udiv(a, b) => self.at(a).checked_div(self.at(b)).unwrap_or(u64::MAX),
            DagNode::Urem(a, b) => self.at(a).checked_rem(self.at(b)).unwrap_or(self.at(a)),
            DagNode::And(a, b) | DagNode::BoolAnd(a, b) => self.at(a) & self.at(b),
            DagNode::Or(a, b) | DagNode::BoolOr(a, b) => self.at(a) | self.at(b),
            DagNode::Xor(a, b) => self.at(a) ^ self.at(b),
            DagNode::Shl(a, b) => self.amount(b).map_or(0, |by| self.at(a) << by),
            DagNode::Lshr(a, b) => self.amount(b).map_or(0, |by| self.at(a) >> by),
            DagNode::Ashr(a, b) => (self.signed(a) >> self.amount(b).unwrap_or(63)) as u64,
            DagNode::Rotr(a, b) => self.rotated_right(a, self.turn(b)),
            DagNode::Rotl(a, b) => self.rotated_right(a, self.widths[a] - self.turn(b)),
            DagNode::Extract(_, low, a) => self.at(a) >> low,
            DagNode::Concat(a, b) => self.at(a) << self.widths[b] | self.at(b),
            DagNode::ZeroExt(a, _) => self.at(a),
            DagNode::SignExt(a, _) => self.signed(a) as u64,
            DagNode::Ite(c, a, _) if self.at(c) == 1 => self.at(a),
            DagNode::Ite(_, _, b) => self.at(b),
            DagNode::Eq(a, b) => u64::from(self.at(a) == self.at(b)),
            DagNode::Ne(a, b) => u64::from(self.at(a) != self.at(b)),
            DagNode::Ult(a, b) => u64::from(self.at(a) < self.at(b)),
            DagNode::Ule(a, b) => u64::from(self.at(a) <= self.at(b)),
            DagNode::Ugt(a, b) => u64::from(self.at(a) > self.at(b)),
            DagNode::Uge(a, b) => u64::from(self.at(a) >= self.at(b)),
            DagNode::Slt(a, b) => u64::from(self.signed(a) < self.signed(b)),
            DagNode::Sle(a, b) => u64::from(self.signed(a) <= self.signed(b)),
            DagNode::Sgt(a, b) => u64::from(self.signed(a) > self.signed(b)),
            DagNode::Sge(a, b) => u64::from(self.signed(a) >= self.signed(b)),
            DagNode::Not(a) | DagNode::BvNot(a) => !self.at(a),
            DagNode::Neg(a) => self.at(a).wrapping_neg(),
            DagNode::Sdiv(a, b) => self.signed_quotient(a, b),
            DagNode::Srem(a, b) => self.signed_remainder(a, b),
        }
    }

    /// The amount of a shift, if it is below the width.
    fn amount(&self, b: usize) -> Option<u64> {
        let by = self.at(b);
        (by < self.widths[b] as u64).then_some(by)
    }

    /// The amount of a rotation.
    fn turn(&self, b: usize) -> usize {
        (self.at(b) % self.widths[b] as u64) as usize
    }

    /// Rotated right by at most the width.
    fn rotated_right(&self, a: usize, by: usize) -> u64 {
        let (word, width) = (self.at(a), self.widths[a]);
        if by % width == 0 {
            word
        } else {
            word >> by | word << (width - by)
        }
    }

    /// Truncated towards zero; the least number by minus one wraps.
    fn signed_quotient(&self, a: usize, b: usize) -> u64 {
        match (self.signed(a), self.signed(b)) {
            (a, 0) if a < 0 => 1,
            (_, 0) => u64::MAX,
            (a, b) => a.wrapping_div(b) as u64,
        }
    }

    /// With the dividend's sign.
    fn signed_remainder(&self, a: usize, b: usize) -> u64 {
        match (self.signed(a), self.signed(b)) {
            (a, 0) => a as u64,
            (a, b) => a.wrapping_rem(b) as u64,
        }
    }
}
