//! The order in which a search of open.rs goes through the rows of a graph.

/// What a search has to know about the rows of a graph.
pub struct Shape {
    pub widths: Vec<usize>,
    /// The earlier rows that each row names.
    pub operands: Vec<Vec<usize>>,
    /// Can it be that the row's value is to be chosen?
    pub free: Vec<bool>,
}

/// The rows that some roots stand on, in the order of a search.
pub struct Plan {
    pub order: Vec<usize>,
    pub is_root: Vec<bool>,
    pub widths: Vec<usize>,
    pub is_true: Truth,
}

/// Whether a root of this width and value is true.
pub type Truth = fn(usize, u64) -> bool;

impl Shape {
    /// Does a row name this one?
    pub fn names(&self, row: usize) -> bool {
        self.operands.iter().any(|operands| operands.contains(&row))
    }

    /// The rows that these stand on, themselves included.
    pub fn reach(&self, roots: &[usize]) -> Vec<bool> {
        let mut reached = vec![false; self.operands.len()];
        roots.iter().for_each(|&root| reached[root] = true);
        for row in (0..reached.len()).rev() {
            if reached[row] {
                let operands = self.operands[row].iter();
                operands.for_each(|&operand| reached[operand] = true);
            }
        }
        reached
    }

    /// The rows that a choice can change.
    fn open(&self) -> Vec<bool> {
        let mut open = self.free.clone();
        for row in 0..open.len() {
            open[row] |= self.operands[row].iter().any(|&operand| open[operand]);
        }
        open
    }

    /// The bits that can be to be chosen at these rows.
    fn bits(&self, rows: &[usize]) -> usize {
        let free = rows.iter().filter(|&&row| self.free[row]);
        free.map(|&row| self.widths[row]).sum()
    }

    /// First the rows that no choice can change, then root by root, always one that
    /// adds the fewest bits to choose.
    pub fn plan(&self, roots: &[usize], is_true: Truth) -> Plan {
        let rows = 0..self.operands.len();
        let (needed, open) = (self.reach(roots), self.open());
        let settled = |row: &usize| needed[*row] && !open[*row];
        let mut order: Vec<usize> = rows.clone().filter(settled).collect();
        let mut left: Vec<Vec<bool>> = roots.iter().map(|&root| self.reach(&[root])).collect();
        while !left.is_empty() {
            let new = |reached: &Vec<bool>| -> Vec<usize> {
                let is_new = |row: &usize| reached[*row] && !order.contains(row);
                rows.clone().filter(is_new).collect()
            };
            let next = (0..left.len()).min_by_key(|&k| self.bits(&new(&left[k])));
            let added = new(&left.swap_remove(next.expect("a root is left")));
            order.extend(added);
        }
        Plan {
            order,
            is_root: rows.map(|row| roots.contains(&row)).collect(),
            widths: self.widths.clone(),
            is_true,
        }
    }
}
