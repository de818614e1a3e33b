//! What a laid-out graph means, bare or behind views: docs/SPECIFICATION.md, "The flow graph", "The walk" and "Views".
use crate::codes::{CONDITION_WORDS, ICMP, ICONST, NO_TYPE, OPAQUE, WORDS, is_integer, is_shift};
use crate::graph::{Graph, ValueRow};
use crate::refusal::Refusal;

/// At most so many pins.
const MOST_PINS: usize = 16;

/// What defines a value.
#[derive(Clone, Debug, PartialEq)]
pub enum Definition {
    Constant(i64),
    Operation { opcode: u8, condition: u8, operands: Vec<usize> },
    Variable,
    Deleted,
}

/// An instruction in its block.
#[derive(Clone, Copy)]
pub struct Laid {
    pub block: usize,
    /// How many instructions of the block come before.
    pub index: usize,
    pub single_result: Option<usize>,
}

/// Types, originals and definitions by value, and the instructions in layout order.
#[derive(Clone)]
pub struct Meaning {
    pub types: Vec<u16>,
    pub originals: Vec<usize>,
    pub definitions: Vec<Definition>,
    pub layout: Vec<Laid>,
    pins: usize,
}

impl Meaning {
    pub fn of(graph: &Graph) -> Meaning {
        let originals: Vec<usize> = (0..graph.values.len()).map(|value| graph.original(value)).collect();
        Meaning {
            types: graph.values.iter().map(ValueRow::ty).collect(),
            definitions: originals.iter().map(|original| defined(graph, &graph.values[*original])).collect(),
            originals,
            layout: laid_out(graph),
            pins: 0,
        }
    }

    /// How many values there are, deleted ones too.
    pub fn len(&self) -> usize {
        self.types.len()
    }

    pub fn is_live(&self, value: usize) -> bool {
        self.types.get(value).is_some_and(|ty| *ty != NO_TYPE)
    }

    /// Whether a value that exists is an integer.
    pub fn is_integer(&self, value: usize) -> bool {
        is_integer(self.types[value])
    }

    /// The operands of a value's operation.
    pub fn uses(&self, value: usize) -> &[usize] {
        match &self.definitions[value] {
            Definition::Operation { operands, .. } => operands,
            _ => &[],
        }
    }

    /// The values that a root reaches, each after what it uses.
    pub fn walk(&self, root: usize) -> Vec<usize> {
        fn show(meaning: &Meaning, value: usize, is_met: &mut [bool], shown: &mut Vec<usize>) {
            if is_met[value] {
                return;
            }
            for operand in meaning.uses(value) {
                show(meaning, *operand, is_met, shown);
            }
            is_met[value] = true;
            shown.push(value);
        }
        let mut shown = vec![];
        show(self, root, &mut vec![false; self.len()], &mut shown);
        shown
    }

    /// Souper's word for the operation that defines a value, if one does and has a translation.
    pub fn word_of(&self, value: usize) -> Option<&'static str> {
        let Definition::Operation { opcode, condition, operands } = &self.definitions[value] else {
            return None;
        };
        match *opcode {
            ICMP => CONDITION_WORDS[usize::from(*condition)],
            shift if is_shift(shift) && self.types[operands[0]] != self.types[operands[1]] => None,
            opcode => Some(WORDS[usize::from(opcode)]),
        }
    }

    /// Whether a shift defines a value whose amount has another width than what it shifts.
    pub fn is_shift_of_two_widths(&self, value: usize) -> bool {
        let is_by_shift = matches!(self.definitions[value], Definition::Operation { opcode, .. } if is_shift(opcode));
        is_by_shift && self.word_of(value).is_none()
    }

    /// Shows an integer variable, and all its aliases, as a constant; or says why not.
    pub fn pin(&mut self, value: usize, immediate: i64) -> Result<(), Refusal> {
        if !self.is_live(value) {
            return Err(Refusal::because(1));
        }
        let ty = self.types[value];
        let is_in_range = ty == 64 || (0..1i64 << ty).contains(&immediate);
        if is_integer(ty) && !is_in_range {
            return Err(Refusal::because(5));
        }
        if !is_integer(ty) || self.definitions[value] != Definition::Variable {
            return Err(Refusal::because(10));
        }
        if self.pins == MOST_PINS {
            return Err(Refusal::because(11));
        }
        self.pins += 1;
        let original = self.originals[value];
        for (at, definition) in self.definitions.iter_mut().enumerate() {
            if self.originals[at] == original {
                *definition = Definition::Constant(immediate);
            }
        }
        Ok(())
    }

    /// Shows each operand as its original.
    pub fn resolve(&mut self) {
        for definition in &mut self.definitions {
            if let Definition::Operation { operands, .. } = definition {
                for operand in operands {
                    *operand = self.originals[*operand];
                }
            }
        }
    }
}

/// What defines an original of this row.
fn defined(graph: &Graph, row: &ValueRow) -> Definition {
    match *row {
        ValueRow::Deleted => Definition::Deleted,
        ValueRow::Result { place: 0, inst, .. } => {
            let inst = &graph.insts[inst];
            match inst.opcode {
                ICONST => Definition::Constant(inst.immediate),
                OPAQUE => Definition::Variable,
                opcode => Definition::Operation { opcode, condition: inst.condition, operands: inst.operands.clone() },
            }
        }
        _ => Definition::Variable,
    }
}

/// The instructions by block, then by number.
fn laid_out(graph: &Graph) -> Vec<Laid> {
    let mut layout = vec![];
    for block in 0..64 {
        for (index, inst) in graph.insts.iter().filter(|inst| inst.block == block).enumerate() {
            let single_result = match inst.results[..] {
                [result] => Some(result),
                _ => None,
            };
            layout.push(Laid { block, index, single_result });
        }
    }
    layout
}
