//! The function that the harvester is shown.
use super::ir::{self, Block, Function, Imm64, Inst, InstructionData, Opcode, Type, Value, ValueData};
use crate::codes::{ICMP, ICONST};
use crate::graph::{Graph, InstRow, ValueRow};

fn value(number: usize) -> Value {
    Value(number as u32)
}

fn values(numbers: &[usize]) -> Vec<Value> {
    numbers.iter().copied().map(value).collect()
}

/// The function of a graph: the same values and instructions, blocks in order, and in each block its instructions in order.
pub fn function_of(graph: &Graph, name: &str) -> Function {
    let mut function = Function { name: name.to_string(), ..Default::default() };
    function.dfg.values = graph.values.iter().map(value_data).collect();
    function.dfg.insts.0 = graph.insts.iter().map(instruction_data).collect();
    function.dfg.results = graph.insts.iter().map(|inst| values(&inst.results)).collect();
    let blocks = graph.insts.iter().map(|inst| inst.block + 1).max().unwrap_or(0);
    function.layout.first = vec![None; blocks];
    function.layout.next = vec![None; graph.insts.len()];
    let mut last: Vec<Option<usize>> = vec![None; blocks];
    for (number, InstRow { block, .. }) in graph.insts.iter().enumerate() {
        let inst = Some(Inst(number as u32));
        match last[*block].replace(number) {
            None => function.layout.first[*block] = inst,
            Some(before) => function.layout.next[before] = inst,
        }
    }
    function
}

fn value_data(row: &ValueRow) -> ValueData {
    match *row {
        ValueRow::Result { ty, place, inst } => ValueData::Inst { ty: Type(ty), num: place as u16, inst: Inst(inst as u32) },
        ValueRow::Param { ty, number, block } => ValueData::Param { ty: Type(ty), num: number as u16, block: Block(block as u32) },
        ValueRow::Alias { ty, to } => ValueData::Alias { ty: Type(ty), original: value(to) },
        ValueRow::Union { ty, x, y } => ValueData::Union { ty: Type(ty), x: value(x), y: value(y) },
        // as in Cranelift, an alias of nothing; no operand leads to it
        ValueRow::Deleted => ValueData::Alias { ty: Type(0), original: Value(u32::MAX) },
    }
}

fn instruction_data(inst: &InstRow) -> InstructionData {
    let opcode = Opcode::ALL[usize::from(inst.opcode)];
    match (inst.opcode, &inst.operands[..]) {
        (ICONST, _) => InstructionData::UnaryImm { opcode, imm: Imm64(inst.immediate) },
        (ICMP, &[a, b]) => {
            InstructionData::IntCompare { opcode, args: [value(a), value(b)], cond: ir::condcodes::IntCC::ALL[usize::from(inst.condition)] }
        }
        (_, operands) => {
            let mut args = [value(0); 3];
            for (arg, operand) in args.iter_mut().zip(operands) {
                *arg = value(*operand);
            }
            InstructionData::Other { opcode, args, count: operands.len() as u8 }
        }
    }
}
