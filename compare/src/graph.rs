//! A laid-out graph by its rows, as an image holds it.
use crate::codes::{ICMP, ICONST, NO_TYPE, UGT, is_shift};

/// What there is of a value.
#[derive(Clone, Copy, Debug, PartialEq, Eq)]
pub enum ValueRow {
    Result { ty: u16, place: usize, inst: usize },
    Param { ty: u16, number: usize, block: usize },
    Alias { ty: u16, to: usize },
    Union { ty: u16, x: usize, y: usize },
    Deleted,
}

impl ValueRow {
    pub fn ty(&self) -> u16 {
        match *self {
            ValueRow::Result { ty, .. } | ValueRow::Param { ty, .. } | ValueRow::Alias { ty, .. } | ValueRow::Union { ty, .. } => ty,
            ValueRow::Deleted => NO_TYPE,
        }
    }
}

/// What there is of an instruction.
#[derive(Clone, Debug, PartialEq, Eq, Default)]
pub struct InstRow {
    pub opcode: u8,
    pub condition: u8,
    pub immediate: i64,
    pub operands: Vec<usize>,
    pub results: Vec<usize>,
    pub block: usize,
}

#[derive(Clone, Debug, PartialEq, Eq, Default)]
pub struct Graph {
    pub values: Vec<ValueRow>,
    pub insts: Vec<InstRow>,
}

impl Graph {
    pub fn ty(&self, value: usize) -> u16 {
        self.values[value].ty()
    }

    /// The end of a value's aliases.
    pub fn original(&self, value: usize) -> usize {
        let mut original = value;
        while let ValueRow::Alias { to, .. } = self.values[original] {
            original = to;
        }
        original
    }

    /// Whether an instruction is a shift whose amount has another width than what it shifts.
    pub fn is_shift_of_two_widths(&self, inst: usize) -> bool {
        let InstRow { opcode, operands, .. } = &self.insts[inst];
        is_shift(*opcode) && self.ty(operands[0]) != self.ty(operands[1])
    }

    /// The graph in which each shift of two widths is a comparison that has no translation. The unchanged Rust gives such a comparison a
    /// variable and walks its operands, which is what we want of such a shift.
    pub fn with_shifts_untranslated(&self) -> Graph {
        let mut graph = self.clone();
        for (number, inst) in graph.insts.iter_mut().enumerate() {
            if self.is_shift_of_two_widths(number) {
                inst.opcode = ICMP;
                inst.condition = UGT;
            }
        }
        graph
    }

    /// The graph in which each operand is its original.
    pub fn resolved(&self) -> Graph {
        let mut graph = self.clone();
        for operand in graph.insts.iter_mut().flat_map(|inst| &mut inst.operands) {
            *operand = self.original(*operand);
        }
        graph
    }

    /// The graph in which a variable is the first result of a constant, whose instruction comes last and lists nothing.
    pub fn pinned(&self, variable: usize, immediate: i64) -> Graph {
        let mut graph = self.clone();
        let original = self.original(variable);
        graph.values[original] = ValueRow::Result { ty: self.ty(original), place: 0, inst: graph.insts.len() };
        graph.insts.push(InstRow { opcode: ICONST, immediate, ..Default::default() });
        graph
    }
}
