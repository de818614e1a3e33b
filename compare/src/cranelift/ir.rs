//! Stands in for the parts of Cranelift's `ir` that the harvester asks. The values' table, the following of aliases and
//! `value_def` are as in Cranelift's `dfg.rs`.
use std::fmt;
use std::ops::Index;

#[derive(Clone, Copy, PartialEq, Eq, Hash, Debug)]
pub struct Value(pub u32);

impl fmt::Display for Value {
    fn fmt(&self, f: &mut fmt::Formatter<'_>) -> fmt::Result {
        write!(f, "v{}", self.0)
    }
}

#[derive(Clone, Copy)]
pub struct Inst(pub u32);

#[derive(Clone, Copy)]
pub struct Block(pub u32);

/// An integer of 8, 16, 32 or 64 bits; 1 is any other type, and 0 none.
#[derive(Clone, Copy)]
pub struct Type(pub u16);

impl Type {
    pub fn is_int(self) -> bool {
        self.0 >= 8
    }

    pub fn lane_count(self) -> u32 {
        1
    }

    pub fn bits(self) -> u32 {
        self.0.into()
    }
}

#[derive(Clone, Copy, PartialEq, Eq, Debug)]
pub enum Opcode {
    Iconst,
    Iadd,
    Imul,
    Udiv,
    Sdiv,
    Urem,
    Srem,
    Band,
    Bor,
    Bxor,
    Bnot,
    Ishl,
    Sshr,
    Ushr,
    Select,
    Uextend,
    Sextend,
    Icmp,
    Popcnt,
    Bitrev,
    Clz,
    Ctz,
    SaddSat,
    SsubSat,
    UsubSat,
    /// Any other instruction.
    Opaque,
    // the harvester names it, and no graph here has it
    #[allow(dead_code)]
    Trunc,
}

impl Opcode {
    /// In the order of their codes in an image.
    pub const ALL: [Opcode; 26] = [
        Opcode::Iconst,
        Opcode::Iadd,
        Opcode::Imul,
        Opcode::Udiv,
        Opcode::Sdiv,
        Opcode::Urem,
        Opcode::Srem,
        Opcode::Band,
        Opcode::Bor,
        Opcode::Bxor,
        Opcode::Bnot,
        Opcode::Ishl,
        Opcode::Sshr,
        Opcode::Ushr,
        Opcode::Select,
        Opcode::Uextend,
        Opcode::Sextend,
        Opcode::Icmp,
        Opcode::Popcnt,
        Opcode::Bitrev,
        Opcode::Clz,
        Opcode::Ctz,
        Opcode::SaddSat,
        Opcode::SsubSat,
        Opcode::UsubSat,
        Opcode::Opaque,
    ];
}

pub mod condcodes {
    #[derive(Clone, Copy)]
    pub enum IntCC {
        Equal,
        NotEqual,
        SignedLessThan,
        SignedGreaterThanOrEqual,
        SignedGreaterThan,
        SignedLessThanOrEqual,
        UnsignedLessThan,
        UnsignedGreaterThanOrEqual,
        UnsignedGreaterThan,
        UnsignedLessThanOrEqual,
    }

    impl IntCC {
        /// In the order of Cranelift's `condcodes.rs`, which is that of their codes in an image.
        pub const ALL: [IntCC; 10] = [
            IntCC::Equal,
            IntCC::NotEqual,
            IntCC::SignedLessThan,
            IntCC::SignedGreaterThanOrEqual,
            IntCC::SignedGreaterThan,
            IntCC::SignedLessThanOrEqual,
            IntCC::UnsignedLessThan,
            IntCC::UnsignedGreaterThanOrEqual,
            IntCC::UnsignedGreaterThan,
            IntCC::UnsignedLessThanOrEqual,
        ];
    }
}

#[derive(Clone, Copy)]
pub struct Imm64(pub i64);

impl From<Imm64> for i64 {
    fn from(imm: Imm64) -> i64 {
        imm.0
    }
}

pub enum InstructionData {
    UnaryImm {
        opcode: Opcode,
        imm: Imm64,
    },
    IntCompare {
        opcode: Opcode,
        args: [Value; 2],
        cond: condcodes::IntCC,
    },
    /// Any other form. Its operands lie in the instruction, as they do in Cranelift for up to three.
    Other {
        opcode: Opcode,
        args: [Value; 3],
        count: u8,
    },
}

impl InstructionData {
    pub fn opcode(&self) -> Opcode {
        match *self {
            InstructionData::UnaryImm { opcode, .. }
            | InstructionData::IntCompare { opcode, .. }
            | InstructionData::Other { opcode, .. } => opcode,
        }
    }

    fn arguments(&self) -> &[Value] {
        match self {
            InstructionData::UnaryImm { .. } => &[],
            InstructionData::IntCompare { args, .. } => args,
            InstructionData::Other { args, count, .. } => &args[..usize::from(*count)],
        }
    }
}

// the harvester asks for the instruction of a first result, and for nothing else
#[allow(dead_code)]
pub enum ValueDef {
    Result(Inst, usize),
    Param(Block, usize),
    Union(Value, Value),
}

pub enum ValueData {
    Inst { ty: Type, num: u16, inst: Inst },
    Param { ty: Type, num: u16, block: Block },
    Alias { ty: Type, original: Value },
    Union { ty: Type, x: Value, y: Value },
}

#[derive(Default)]
pub struct Insts(pub Vec<InstructionData>);

impl Index<Inst> for Insts {
    type Output = InstructionData;

    fn index(&self, inst: Inst) -> &InstructionData {
        &self.0[inst.0 as usize]
    }
}

#[derive(Default)]
pub struct DataFlowGraph {
    pub insts: Insts,
    /// The results that each instruction lists.
    pub results: Vec<Vec<Value>>,
    pub values: Vec<ValueData>,
}

impl DataFlowGraph {
    /// Cranelift follows at most as many aliases as there are values.
    pub fn resolve_aliases(&self, value: Value) -> Value {
        let mut v = value;
        for _ in 0..=self.values.len() {
            let ValueData::Alias { original, .. } = self.values[v.0 as usize] else {
                return v;
            };
            v = original;
        }
        panic!("Value alias loop detected for {value}");
    }

    pub fn value_type(&self, v: Value) -> Type {
        match self.values[v.0 as usize] {
            ValueData::Inst { ty, .. } | ValueData::Param { ty, .. } | ValueData::Alias { ty, .. } | ValueData::Union { ty, .. } => ty,
        }
    }

    pub fn value_def(&self, v: Value) -> ValueDef {
        match self.values[v.0 as usize] {
            ValueData::Inst { inst, num, .. } => ValueDef::Result(inst, num.into()),
            ValueData::Param { block, num, .. } => ValueDef::Param(block, num.into()),
            ValueData::Alias { original, .. } => self.value_def(self.resolve_aliases(original)),
            ValueData::Union { x, y, .. } => ValueDef::Union(x, y),
        }
    }

    pub fn inst_args(&self, inst: Inst) -> &[Value] {
        self.insts[inst].arguments()
    }

    pub fn inst_results(&self, inst: Inst) -> &[Value] {
        &self.results[inst.0 as usize]
    }
}

/// The instructions of each block, in their order.
#[derive(Default)]
pub struct Layout {
    pub first: Vec<Option<Inst>>,
    pub next: Vec<Option<Inst>>,
}

impl Layout {
    pub fn blocks(&self) -> impl Iterator<Item = Block> + '_ {
        (0..self.first.len() as u32).map(Block)
    }

    pub fn first_inst(&self, block: Block) -> Option<Inst> {
        self.first[block.0 as usize]
    }

    pub fn next_inst(&self, inst: Inst) -> Option<Inst> {
        self.next[inst.0 as usize]
    }
}

#[derive(Default)]
pub struct Function {
    pub name: String,
    pub layout: Layout,
    pub dfg: DataFlowGraph,
}
