//! The numbers that types, opcodes and conditions have in an image, and their words: docs/SPECIFICATION.md, "Entities and types" and
//! "Opcodes".

/// The type of a deleted value.
pub const NO_TYPE: u16 = 0;

/// Any type that is no integer.
pub const OTHER: u16 = 1;

/// The integer types, known by their widths.
pub const WIDTHS: [u16; 4] = [8, 16, 32, 64];

/// Whether a known type is an integer.
pub fn is_integer(ty: u16) -> bool {
    ty >= 8
}

pub const ICONST: u8 = 0;
pub const IADD: u8 = 1;
pub const IMUL: u8 = 2;
pub const BAND: u8 = 7;
pub const BOR: u8 = 8;
pub const BXOR: u8 = 9;
pub const BNOT: u8 = 10;
pub const ISHL: u8 = 11;
pub const SSHR: u8 = 12;
pub const USHR: u8 = 13;
pub const SELECT: u8 = 14;
pub const UEXTEND: u8 = 15;
pub const SEXTEND: u8 = 16;
pub const ICMP: u8 = 17;
pub const OPAQUE: u8 = 25;

/// Greater than, unsigned: a condition without a word in Souper's language.
pub const UGT: u8 = 8;

/// How many conditions there are.
pub const CONDITIONS: usize = 10;

/// Whether a code is that of an operation.
pub fn is_operation(opcode: u8) -> bool {
    (IADD..OPAQUE).contains(&opcode)
}

pub fn is_shift(opcode: u8) -> bool {
    matches!(opcode, ISHL | SSHR | USHR)
}

/// How many operands an opcode may have.
pub fn operand_counts(opcode: u8) -> std::ops::RangeInclusive<usize> {
    match opcode {
        ICONST => 0..=0,
        BNOT | UEXTEND | SEXTEND | 18..=21 => 1..=1,
        SELECT => 3..=3,
        OPAQUE => 0..=3,
        _ => 2..=2,
    }
}

/// How many results an opcode may list.
pub fn most_results(opcode: u8) -> usize {
    if opcode == OPAQUE { 2 } else { 1 }
}

/// Souper's word for each opcode; a constant and an `opaque` have none, and a comparison has that of its condition.
pub const WORDS: [&str; 26] = [
    "",
    "add",
    "mul",
    "udiv",
    "sdiv",
    "urem",
    "srem",
    "and",
    "or",
    "xor",
    "xor",
    "shl",
    "ashr",
    "lshr",
    "select",
    "zext",
    "sext",
    "",
    "ctpop",
    "bitreverse",
    "ctlz",
    "cttz",
    "sadd.sat",
    "ssub.sat",
    "usub.sat",
    "",
];

/// Souper's word for each condition, if it has one: eq, ne, slt, sge, sgt, sle, ult, uge, ugt, ule.
pub const CONDITION_WORDS: [Option<&str>; CONDITIONS] =
    [Some("eq"), Some("ne"), Some("slt"), None, None, Some("sle"), Some("ult"), None, None, Some("ule")];
