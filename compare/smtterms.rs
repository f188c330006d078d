//! Terms of SMT-LIB for core rows, over what stands for their operands.

use crate::tags::*;

/// A graph whose rows' terms are asked for.
pub struct Terms<'t> {
    /// What stands for a row.
    pub at: &'t dyn Fn(u64) -> String,
    pub widths: &'t [u64],
    pub bits: &'t [u64],
}

impl Terms<'_> {
    /// The term of a core row that is no variable, by its tag and fields.
    pub fn of(&self, f: &[u64]) -> String {
        let at = self.at;
        match f[0] {
            CONST => self.constant(f[1] as usize, f[2] as usize),
            EXTRACT => format!("((_ extract {} {}) {})", f[1], f[2], at(f[3])),
            ZERO_EXT => format!("((_ zero_extend {}) {})", f[2], at(f[1])),
            SIGN_EXT => format!("((_ sign_extend {}) {})", f[2], at(f[1])),
            ITE => {
                let [c, a, b] = [f[1], f[2], f[3]].map(at);
                format!("(ite (= {c} #b1) {a} {b})")
            }
            BV_NOT => format!("(bvnot {})", at(f[1])),
            NEG => format!("(bvneg {})", at(f[1])),
            NOT => one_bit(&format!("(not (= {} #b1))", at(f[1]))),
            BOOL_AND | BOOL_OR => {
                let name = if f[0] == BOOL_AND { "and" } else { "or" };
                let [a, b] = [f[1], f[2]].map(|row| format!("(= {} #b1)", at(row)));
                one_bit(&format!("({name} {a} {b})"))
            }
            ROTR => self.rotation(f, "bvlshr", "bvshl"),
            ROTL => self.rotation(f, "bvshl", "bvlshr"),
            _ => self.pair(f),
        }
    }

    /// A constant from its bits, the highest written first.
    fn constant(&self, start: usize, width: usize) -> String {
        let bits = self.bits[start..start + width].iter().rev();
        let digits: String = bits.map(|bit| bit.to_string()).collect();
        format!("#b{digits}")
    }

    /// A rotation by a row: one shift by the amount modulo the width, joined
    /// with the opposite shift by the rest of the width.
    fn rotation(&self, f: &[u64], there: &str, back: &str) -> String {
        let width = self.widths[f[1] as usize];
        let (word, whole) = ((self.at)(f[1]), literal(width, width));
        let amount = format!("(bvurem {} {whole})", (self.at)(f[2]));
        format!("(bvor ({there} {word} {amount}) ({back} {word} (bvsub {whole} {amount})))")
    }

    /// An operator of two operands that SMT-LIB has under one name.
    fn pair(&self, f: &[u64]) -> String {
        let term = format!("({} {} {})", name(f[0]), (self.at)(f[1]), (self.at)(f[2]));
        if (EQ..=SGE).contains(&f[0]) {
            one_bit(&term)
        } else {
            term
        }
    }
}

fn name(tag: u64) -> String {
    match tag {
        CONCAT => "concat".to_string(),
        EQ => "=".to_string(),
        NE => "distinct".to_string(),
        _ => format!("bv{}", TAGS[tag as usize].0.to_lowercase()),
    }
}

/// A truth value as a bit.
fn one_bit(condition: &str) -> String {
    format!("(ite {condition} #b1 #b0)")
}

/// A word of this width in binary digits.
pub fn literal(word: u64, width: u64) -> String {
    format!("#b{word:0width$b}", width = width as usize)
}
