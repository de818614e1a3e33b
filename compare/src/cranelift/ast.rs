//! Stands in for `souper_ir::ast`: the syntax tree of a left-hand side, as far as the harvester builds one, and its text.
//!
//! The text of a row is that of docs/SPECIFICATION.md, "The text of a candidate"; souper-ir's own is not known here.
use std::fmt;
use std::sync::atomic::{AtomicBool, Ordering};

/// Whether rows are left out of the text, so that a measured harvest does not spend its time on their spelling.
pub static WITHOUT_ROWS: AtomicBool = AtomicBool::new(false);

#[derive(Clone, Copy)]
pub struct ValueId(usize);

#[derive(Clone, Copy)]
pub struct Type {
    pub width: u16,
}

#[derive(Clone, Copy)]
pub struct Constant {
    pub value: i128,
    pub r#type: Option<Type>,
}

#[derive(Clone, Copy)]
pub enum Operand {
    Value(ValueId),
    Constant(Constant),
}

impl From<ValueId> for Operand {
    fn from(value: ValueId) -> Operand {
        Operand::Value(value)
    }
}

impl From<Constant> for Operand {
    fn from(constant: Constant) -> Operand {
        Operand::Constant(constant)
    }
}

/// The instructions, each with its word and the names of its operands.
macro_rules! instructions {
    ($($name:ident $word:literal ($($operand:ident),*);)*) => {
        // another text than the vendored one may do without some
        #[allow(dead_code)]
        #[derive(Clone, Copy)]
        pub enum Instruction {
            $($name { $($operand: Operand),* },)*
        }

        impl Instruction {
            fn word(&self) -> &'static str {
                match self {
                    $(Instruction::$name { .. } => $word,)*
                }
            }

            fn operands(&self) -> Vec<Operand> {
                match self {
                    $(Instruction::$name { $($operand),* } => vec![$(*$operand),*],)*
                }
            }
        }
    };
}

instructions! {
    Add "add" (a, b);
    Mul "mul" (a, b);
    Udiv "udiv" (a, b);
    Sdiv "sdiv" (a, b);
    Urem "urem" (a, b);
    Srem "srem" (a, b);
    And "and" (a, b);
    Or "or" (a, b);
    Xor "xor" (a, b);
    Shl "shl" (a, b);
    Ashr "ashr" (a, b);
    Lshr "lshr" (a, b);
    Select "select" (a, b, c);
    Zext "zext" (a);
    Sext "sext" (a);
    Trunc "trunc" (a);
    Eq "eq" (a, b);
    Ne "ne" (a, b);
    Ult "ult" (a, b);
    Slt "slt" (a, b);
    Ule "ule" (a, b);
    Sle "sle" (a, b);
    Ctpop "ctpop" (a);
    BitReverse "bitreverse" (a);
    Ctlz "ctlz" (a);
    Cttz "cttz" (a);
    SaddSat "sadd.sat" (a, b);
    SsubSat "ssub.sat" (a, b);
    UsubSat "usub.sat" (a, b);
}

#[derive(Clone, Copy)]
pub enum AssignmentRhs {
    Var,
    Instruction(Instruction),
}

impl From<Instruction> for AssignmentRhs {
    fn from(instruction: Instruction) -> AssignmentRhs {
        AssignmentRhs::Instruction(instruction)
    }
}

/// The harvester gives none.
pub struct Attribute;

// the harvester names no row and gives no attribute, and the text has neither
#[allow(dead_code)]
pub struct Assignment {
    pub name: Option<String>,
    pub r#type: Option<Type>,
    pub value: AssignmentRhs,
    pub attributes: Vec<Attribute>,
}

#[derive(Default)]
pub struct LeftHandSideBuilder {
    assignments: Vec<Assignment>,
}

impl LeftHandSideBuilder {
    pub fn assignment(
        &mut self,
        name: Option<String>,
        r#type: Option<Type>,
        value: impl Into<AssignmentRhs>,
        attributes: Vec<Attribute>,
    ) -> ValueId {
        let id = ValueId(self.assignments.len());
        let value = value.into();
        self.assignments.push(Assignment { name, r#type, value, attributes });
        id
    }

    pub fn get_value(&self, id: ValueId) -> &Assignment {
        &self.assignments[id.0]
    }

    pub fn finish(self, root: ValueId, _attributes: Option<Vec<Attribute>>) -> LeftHandSide {
        LeftHandSide { assignments: self.assignments, root }
    }
}

pub struct LeftHandSide {
    assignments: Vec<Assignment>,
    root: ValueId,
}

impl fmt::Display for Operand {
    fn fmt(&self, f: &mut fmt::Formatter<'_>) -> fmt::Result {
        match self {
            Operand::Value(ValueId(row)) => write!(f, "%{row}"),
            Operand::Constant(Constant { value, r#type: Some(Type { width }) }) => write!(f, "{value}:i{width}"),
            Operand::Constant(Constant { value, r#type: None }) => write!(f, "{value}"),
        }
    }
}

impl fmt::Display for LeftHandSide {
    fn fmt(&self, f: &mut fmt::Formatter<'_>) -> fmt::Result {
        if WITHOUT_ROWS.load(Ordering::Relaxed) {
            return Ok(());
        }
        for (number, row) in self.assignments.iter().enumerate() {
            write!(f, "%{number}")?;
            if let Some(Type { width }) = row.r#type {
                write!(f, ":i{width}")?;
            }
            match &row.value {
                AssignmentRhs::Var => write!(f, " = var")?,
                AssignmentRhs::Instruction(instruction) => {
                    write!(f, " = {}", instruction.word())?;
                    for (place, operand) in instruction.operands().iter().enumerate() {
                        let before = if place == 0 { " " } else { ", " };
                        write!(f, "{before}{operand}")?;
                    }
                }
            }
            writeln!(f)?;
        }
        writeln!(f, "infer %{}", self.root.0)
    }
}
