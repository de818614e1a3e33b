//! A graph as the bytes of an image, and back: docs/SPECIFICATION.md, "Images".
use crate::codes::NO_TYPE;
use crate::graph::{Graph, InstRow, ValueRow};

/// How many bytes a record has.
pub const RECORD: usize = 40;

/// The image of a graph.
pub fn write_image(graph: &Graph) -> Vec<u8> {
    let values = graph.values.iter().map(value_record);
    let insts = graph.insts.iter().map(inst_record);
    values.chain(insts).flatten().collect()
}

fn put(record: &mut [u8; RECORD], at: usize, number: usize) {
    record[at..at + 4].copy_from_slice(&(number as u32).to_le_bytes());
}

fn value_record(row: &ValueRow) -> [u8; RECORD] {
    let (tag, x, y) = match *row {
        ValueRow::Result { place, inst, .. } => (0, place, inst),
        ValueRow::Param { number, block, .. } => (1, number, block),
        ValueRow::Alias { to, .. } => (2, 0, to),
        ValueRow::Deleted => (2, 0, u32::MAX as usize),
        ValueRow::Union { x, y, .. } => (3, x, y),
    };
    let mut record = [0; RECORD];
    record[0] = 1;
    put(&mut record, 4, x);
    put(&mut record, 8, y);
    record[12..14].copy_from_slice(&(tag << 14 | row.ty()).to_le_bytes());
    record
}

fn inst_record(inst: &InstRow) -> [u8; RECORD] {
    let mut record = [0; RECORD];
    record[0] = 2;
    record[1] = inst.opcode;
    record[2] = inst.condition;
    record[3] = inst.operands.len() as u8;
    record[4] = inst.results.len() as u8;
    record[8..16].copy_from_slice(&inst.immediate.to_le_bytes());
    for (place, operand) in inst.operands.iter().enumerate() {
        put(&mut record, 16 + 4 * place, *operand);
    }
    for (place, result) in inst.results.iter().enumerate() {
        put(&mut record, 28 + 4 * place, *result);
    }
    put(&mut record, 36, inst.block);
    record
}

/// The graph of accepted bytes.
pub fn read_image(bytes: &[u8]) -> Graph {
    let mut graph = Graph::default();
    for record in bytes.chunks_exact(RECORD) {
        if record[0] == 1 {
            graph.values.push(value_row(record));
        } else {
            graph.insts.push(inst_row(record));
        }
    }
    graph
}

fn number_at(record: &[u8], at: usize) -> usize {
    u32::from_le_bytes([record[at], record[at + 1], record[at + 2], record[at + 3]]) as usize
}

fn value_row(record: &[u8]) -> ValueRow {
    let (x, y) = (number_at(record, 4), number_at(record, 8));
    let tag_and_type = u16::from_le_bytes([record[12], record[13]]);
    let ty = tag_and_type & 0x3fff;
    match tag_and_type >> 14 {
        0 => ValueRow::Result { ty, place: x, inst: y },
        1 => ValueRow::Param { ty, number: x, block: y },
        2 if ty == NO_TYPE => ValueRow::Deleted,
        2 => ValueRow::Alias { ty, to: y },
        _ => ValueRow::Union { ty, x, y },
    }
}

fn inst_row(record: &[u8]) -> InstRow {
    let fields = |from: usize, count: u8| (0..usize::from(count)).map(|place| number_at(record, from + 4 * place)).collect();
    InstRow {
        opcode: record[1],
        condition: record[2],
        immediate: i64::from_le_bytes(record[8..16].try_into().expect("eight bytes")),
        operands: fields(16, record[3]),
        results: fields(28, record[4]),
        block: number_at(record, 36),
    }
}
