//! The verdict on any bytes, written from docs/SPECIFICATION.md, "Images". It reads records by itself, and shares nothing with the reader
//! of accepted bytes.
use crate::codes::{ICMP, ICONST, NO_TYPE, OPAQUE, OTHER, is_integer, is_operation, is_shift, most_results, operand_counts};
use crate::codes::{SELECT, SEXTEND, UEXTEND, WIDTHS};
use crate::image::RECORD;
use crate::refusal::Refusal;

/// At most so many records of a kind.
const MOST: usize = 1024;

/// Accepts an image, or names what stands first against it.
pub fn judge(bytes: &[u8]) -> Result<(), Refusal> {
    if !bytes.len().is_multiple_of(RECORD) {
        return Err(Refusal::because(12));
    }
    let records = Records::of(bytes);
    if records.values.len() > MOST || records.insts.len() > MOST {
        return Err(Refusal::because(12));
    }
    records.check_each(bytes)?;
    for value in 0..records.values.len() {
        if let Some(number) = records.misfit(value) {
            return Err(Refusal::at(number, value));
        }
    }
    records.lowest_in_loop().map_or(Ok(()), |value| Err(Refusal::at(9, value)))
}

fn number_at(record: &[u8], at: usize) -> usize {
    let byte = |place: usize| usize::from(record[at + place]);
    byte(0) + (byte(1) << 8) + (byte(2) << 16) + (byte(3) << 24)
}

fn is_zero(bytes: &[u8]) -> bool {
    bytes.iter().all(|byte| *byte == 0)
}

/// What a value record says the value is.
const RESULT: u8 = 0;
const PARAM: u8 = 1;
const ALIAS: u8 = 2;

#[derive(Clone, Copy)]
struct ValueRecord<'a>(&'a [u8]);

impl ValueRecord<'_> {
    fn tag(&self) -> u8 {
        self.0[13] >> 6
    }

    fn ty(&self) -> u16 {
        u16::from(self.0[13] & 0x3f) * 256 + u16::from(self.0[12])
    }

    fn x(&self) -> usize {
        number_at(self.0, 4)
    }

    fn y(&self) -> usize {
        number_at(self.0, 8)
    }

    fn is_deleted(&self) -> bool {
        self.tag() == ALIAS && self.ty() == NO_TYPE && self.y() == u32::MAX as usize
    }

    fn has_unused_bytes(&self) -> bool {
        !is_zero(&self.0[1..4]) || !is_zero(&self.0[14..]) || (self.tag() == ALIAS && self.x() != 0)
    }
}

#[derive(Clone, Copy)]
struct InstRecord<'a>(&'a [u8]);

impl InstRecord<'_> {
    fn opcode(&self) -> u8 {
        self.0[1]
    }

    fn condition(&self) -> u8 {
        self.0[2]
    }

    fn operand_count(&self) -> usize {
        self.0[3].into()
    }

    fn result_count(&self) -> usize {
        self.0[4].into()
    }

    fn immediate(&self) -> i64 {
        i64::from_le_bytes(self.0[8..16].try_into().expect("eight bytes"))
    }

    fn block(&self) -> usize {
        number_at(self.0, 36)
    }

    /// The operands, of which there are fields for three.
    fn operands(&self) -> Vec<usize> {
        (0..self.operand_count().min(3)).map(|place| number_at(self.0, 16 + 4 * place)).collect()
    }

    /// The listed results, of which there are fields for two.
    fn results(&self) -> Vec<usize> {
        (0..self.result_count().min(2)).map(|place| number_at(self.0, 28 + 4 * place)).collect()
    }

    fn has_unused_bytes(&self) -> bool {
        let operands_end = 16 + 4 * self.operand_count().min(3);
        let results_end = 28 + 4 * self.result_count().min(2);
        !is_zero(&self.0[5..8])
            || !is_zero(&self.0[operands_end..28])
            || !is_zero(&self.0[results_end..36])
            || (self.opcode() != ICMP && self.condition() != 0)
            || (self.opcode() != ICONST && !is_zero(&self.0[8..16]))
    }
}

/// The records by their kinds, which byte 0 tells.
struct Records<'a> {
    values: Vec<ValueRecord<'a>>,
    insts: Vec<InstRecord<'a>>,
}

impl<'a> Records<'a> {
    fn of(bytes: &'a [u8]) -> Records<'a> {
        let of_kind = |kind: u8| bytes.chunks_exact(RECORD).filter(move |record| record[0] == kind);
        Records { values: of_kind(1).map(ValueRecord).collect(), insts: of_kind(2).map(InstRecord).collect() }
    }

    fn is_live(&self, value: usize) -> bool {
        self.values.get(value).is_some_and(|record| !record.is_deleted())
    }

    fn ty(&self, value: usize) -> u16 {
        self.values[value].ty()
    }

    /// Judges record by record.
    fn check_each(&self, bytes: &[u8]) -> Result<(), Refusal> {
        let mut insts = 0;
        for (place, record) in bytes.chunks_exact(RECORD).enumerate() {
            let fault = match record[0] {
                1 if insts > 0 => Some(13),
                1 => self.value_fault(ValueRecord(record)),
                2 => {
                    insts += 1;
                    self.inst_fault(insts - 1, InstRecord(record))
                }
                _ => Some(13),
            };
            if let Some(number) = fault {
                return Err(Refusal::at(number, place));
            }
        }
        Ok(())
    }

    /// What stands against a value record alone.
    fn value_fault(&self, record: ValueRecord) -> Option<u8> {
        let (x, y) = (record.x(), record.y());
        if record.has_unused_bytes() || (record.tag() == PARAM && y > 63) {
            return Some(13);
        }
        if record.is_deleted() {
            return None;
        }
        if record.ty() != OTHER && !WIDTHS.contains(&record.ty()) {
            return Some(2);
        }
        match record.tag() {
            RESULT => {
                let inst = self.insts.get(y);
                let most = inst.map_or(2, |inst| most_results(inst.opcode()));
                if x >= most {
                    Some(3)
                } else if inst.is_none() {
                    Some(1)
                } else {
                    None
                }
            }
            PARAM => (x > 0xffff).then_some(3),
            ALIAS => (!self.is_live(y)).then_some(1),
            // a union
            _ => (!self.is_live(x) || !self.is_live(y)).then_some(1),
        }
    }

    /// What stands against an instruction record alone.
    fn inst_fault(&self, number: usize, record: InstRecord) -> Option<u8> {
        let is_named = |place: usize, result: usize| {
            let value = self.values.get(result);
            value.is_some_and(|value| value.tag() == RESULT && value.x() == place && value.y() == number)
        };
        let mut results = record.results().into_iter().enumerate();
        if record.has_unused_bytes() || record.block() > 63 || !results.all(|(place, result)| is_named(place, result)) {
            return Some(13);
        }
        let opcode = record.opcode();
        if opcode > OPAQUE || record.condition() > 9 {
            return Some(2);
        }
        if !operand_counts(opcode).contains(&record.operand_count()) || record.result_count() > most_results(opcode) {
            return Some(3);
        }
        (!record.operands().iter().all(|operand| self.is_live(*operand))).then_some(1)
    }

    /// Whether widths do not fit at a value whose records are sound, or a constant is out of range.
    fn misfit(&self, value: usize) -> Option<u8> {
        let record = self.values[value];
        if let Some(target) = self.alias_target(value) {
            return (record.ty() != self.ty(target)).then_some(4);
        }
        if record.tag() != RESULT || record.x() != 0 {
            return None;
        }
        let inst = self.insts[record.y()];
        let result = record.ty();
        let operands: Vec<u16> = inst.operands().iter().map(|operand| self.ty(*operand)).collect();
        if !widths_fit(inst.opcode(), &operands, result) {
            return Some(4);
        }
        let is_in_range = result == 64 || (0..1 << result).contains(&inst.immediate());
        (inst.opcode() == ICONST && !is_in_range).then_some(5)
    }

    /// Where an alias points.
    fn alias_target(&self, value: usize) -> Option<usize> {
        let record = self.values[value];
        (record.tag() == ALIAS && !record.is_deleted()).then(|| record.y())
    }

    /// What a value's aliases lead to, one after the other, in at most as many steps as there are values.
    fn aliases_of(&self, value: usize) -> impl Iterator<Item = usize> {
        std::iter::successors(self.alias_target(value), |at| self.alias_target(*at)).take(self.values.len())
    }

    /// What a value uses: the operands of its operation, where an alias has those of its original.
    fn uses(&self, value: usize) -> Vec<usize> {
        let original = self.values[self.aliases_of(value).last().unwrap_or(value)];
        // what leads into a circle of aliases ends at an alias, and uses nothing
        if original.tag() != RESULT || original.x() != 0 {
            return vec![];
        }
        let inst = self.insts[original.y()];
        if is_operation(inst.opcode()) { inst.operands() } else { vec![] }
    }

    /// The lowest value from which aliases lead back to it, or that uses a value that reaches it.
    fn lowest_in_loop(&self) -> Option<usize> {
        let count = self.values.len();
        let uses: Vec<Vec<usize>> = (0..count).map(|value| self.uses(value)).collect();
        let uses_itself = |value: usize| {
            let mut is_met = vec![false; count];
            let mut next = uses[value].clone();
            while let Some(reached) = next.pop() {
                if reached == value {
                    return true;
                }
                if !std::mem::replace(&mut is_met[reached], true) {
                    next.extend(&uses[reached]);
                }
            }
            false
        };
        (0..count).find(|value| self.aliases_of(*value).any(|at| at == *value) || uses_itself(*value))
    }
}

/// Whether the types of operands and result fit an opcode, whose operand count fits.
fn widths_fit(opcode: u8, operands: &[u16], result: u16) -> bool {
    if opcode == OPAQUE {
        return true;
    }
    let are_integers = is_integer(result) && operands.iter().all(|ty| is_integer(*ty));
    let fit = match *operands {
        [amount_of, _] if is_shift(opcode) => amount_of == result,
        [_, x, y] if opcode == SELECT => x == result && y == result,
        [from] if opcode == UEXTEND || opcode == SEXTEND => from < result,
        [x, y] if opcode == ICMP => x == y && result == 8,
        _ => operands.iter().all(|ty| *ty == result),
    };
    are_integers && fit
}
