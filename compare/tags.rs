//! The 39 tags of a row: their names, the number of fields each uses, and the
//! ones that the generators treat on their own.

pub const VAR: u64 = 0;
pub const CONST: u64 = 1;
pub const ADD: u64 = 2;
pub const MUL: u64 = 4;
pub const UDIV: u64 = 5;
pub const UREM: u64 = 6;
pub const AND: u64 = 7;
pub const XOR: u64 = 9;
pub const SHL: u64 = 10;
pub const LSHR: u64 = 11;
pub const ASHR: u64 = 12;
pub const ROTR: u64 = 13;
pub const EXTRACT: u64 = 14;
pub const CONCAT: u64 = 15;
pub const ZERO_EXT: u64 = 16;
pub const SIGN_EXT: u64 = 17;
pub const ITE: u64 = 18;
pub const EQ: u64 = 19;
pub const NE: u64 = 20;
pub const ULT: u64 = 21;
pub const UGE: u64 = 24;
pub const SLT: u64 = 25;
pub const SGE: u64 = 28;
pub const NOT: u64 = 29;
pub const BOOL_AND: u64 = 30;
pub const BOOL_OR: u64 = 31;
pub const BV_NOT: u64 = 32;
pub const NEG: u64 = 33;
pub const ROTL: u64 = 34;
pub const SDIV: u64 = 35;
pub const SREM: u64 = 36;
pub const SELECT: u64 = 37;
pub const CALL: u64 = 38;

/// The tags of rows that can be wider than every row before them.
pub const WIDENING: [u64; 6] = [VAR, CONST, CONCAT, ZERO_EXT, SIGN_EXT, CALL];

/// Does this field, counted from 1, name an earlier row?
pub fn names_row(tag: u64, field: usize) -> bool {
    match tag {
        VAR | CONST | CALL => false,
        EXTRACT => field == 3,
        ZERO_EXT | SIGN_EXT => field == 1,
        SELECT => field == 2,
        _ => true,
    }
}

/// The tags of two operands of one width, which may be any.
pub fn pair_tags() -> impl Iterator<Item = u64> {
    (ADD..=ROTR).chain(EQ..=SGE).chain(ROTL..=SREM)
}

/// Name and number of used fields, by tag.
pub const TAGS: [(&str, usize); 39] = [
    ("Var", 1),
    ("Const", 2),
    ("Add", 2),
    ("Sub", 2),
    ("Mul", 2),
    ("Udiv", 2),
    ("Urem", 2),
    ("And", 2),
    ("Or", 2),
    ("Xor", 2),
    ("Shl", 2),
    ("Lshr", 2),
    ("Ashr", 2),
    ("Rotr", 2),
    ("Extract", 3),
    ("Concat", 2),
    ("ZeroExt", 2),
    ("SignExt", 2),
    ("Ite", 3),
    ("Eq", 2),
    ("Ne", 2),
    ("Ult", 2),
    ("Ule", 2),
    ("Ugt", 2),
    ("Uge", 2),
    ("Slt", 2),
    ("Sle", 2),
    ("Sgt", 2),
    ("Sge", 2),
    ("Not", 1),
    ("BoolAnd", 2),
    ("BoolOr", 2),
    ("BvNot", 1),
    ("Neg", 1),
    ("Rotl", 2),
    ("Sdiv", 2),
    ("Srem", 2),
    ("Select", 4),
    ("Call", 4),
];
