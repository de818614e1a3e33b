//! The two evaluators: docs/SPECIFICATION.md, "What the operations compute", "Rows" and "The evaluators". The operations of the IR are
//! worked out in machine arithmetic and Souper's words in exact integers, so that neither can hide an error of the other.
use crate::codes::is_integer;
use crate::meaning::{Definition, Meaning};
use crate::refusal::Refusal;
use crate::translation::{Operand, Row, Translation, VAR};

/// The greatest number of a width.
pub fn greatest(width: u16) -> u64 {
    u64::MAX >> (64 - width)
}

/// A number with its width.
pub type Sized = (u64, u16);

/// What an operation computes at a width, or none where it traps.
pub fn operation(opcode: u8, condition: u8, width: u16, operands: &[Sized]) -> Option<u64> {
    // the signed reading, in the upper bits too
    let signed = |(number, width): Sized| ((number << (64 - width)) as i64) >> (64 - width);
    let mask = greatest(width);
    let bits = u32::from(width);
    let (x, y) = (operands[0].0, operands.get(1).map_or(0, |operand| operand.0));
    let sx = signed(operands[0]);
    let sy = operands.get(1).map_or(0, |operand| signed(*operand));
    let amount = (y % u64::from(width)) as u32;
    let least = -1i64 << (width - 1);
    let clamped = |number: i128| number.clamp(least.into(), (-(least + 1)).into()) as u64 & mask;
    Some(match opcode {
        1 => x.wrapping_add(y) & mask,
        2 => x.wrapping_mul(y) & mask,
        3 => x.checked_div(y)?,
        4 if sx == least && sy == -1 => return None,
        4 => sx.checked_div(sy)? as u64 & mask,
        5 => x.checked_rem(y)?,
        6 if sy == 0 => return None,
        6 => sx.wrapping_rem(sy) as u64 & mask,
        7 => x & y,
        8 => x | y,
        9 => x ^ y,
        10 => !x & mask,
        11 => x << amount & mask,
        12 => (sx >> amount) as u64 & mask,
        13 => x >> amount,
        14 => operands[if x != 0 { 1 } else { 2 }].0,
        15 => x,
        16 => sx as u64 & mask,
        17 => u64::from(match condition {
            0 => x == y,
            1 => x != y,
            2 => sx < sy,
            3 => sx >= sy,
            4 => sx > sy,
            5 => sx <= sy,
            6 => x < y,
            7 => x >= y,
            8 => x > y,
            _ => x <= y,
        }),
        18 => x.count_ones().into(),
        19 => x.reverse_bits() >> (64 - bits),
        20 => (x.leading_zeros() - (64 - bits)).into(),
        21 => x.trailing_zeros().min(bits).into(),
        22 => clamped(i128::from(sx) + i128::from(sy)),
        23 => clamped(i128::from(sx) - i128::from(sy)),
        24 => x.saturating_sub(y),
        _ => unreachable!("{opcode} is no operation"),
    })
}

/// The numbers of the values of a walk; none where an operation that a value reaches traps. `inputs` has one number for each value, of
/// which those of the variables' originals are read.
pub fn ir_numbers(meaning: &Meaning, walk: &[usize], inputs: &[u64]) -> Vec<Option<u64>> {
    let mut numbers: Vec<Option<u64>> = vec![None; meaning.len()];
    for value in walk {
        let width = meaning.types[*value];
        numbers[*value] = match &meaning.definitions[*value] {
            Definition::Constant(immediate) => Some(*immediate as u64 & greatest(width)),
            Definition::Variable => Some(inputs[meaning.originals[*value]]),
            Definition::Deleted => unreachable!("a walk shows live values"),
            Definition::Operation { opcode, condition, operands } => {
                let sized = |operand: &usize| Some((numbers[*operand]?, meaning.types[*operand]));
                let operands: Option<Vec<Sized>> = operands.iter().map(sized).collect();
                operands.and_then(|operands| operation(*opcode, *condition, width, &operands))
            }
        };
    }
    numbers
}

/// A value's number in the IR.
pub fn ir_number(meaning: &Meaning, value: usize, inputs: &[u64]) -> Result<u64, Refusal> {
    if !meaning.is_live(value) {
        return Err(Refusal::because(1));
    }
    if inputs.len() < meaning.len() {
        return Err(Refusal::at(14, meaning.len()));
    }
    if !meaning.is_integer(value) {
        return Err(Refusal::because(15));
    }
    let walk = meaning.walk(value);
    let is_too_wide = |reached: &&usize| {
        let width = if is_integer(meaning.types[**reached]) { meaning.types[**reached] } else { 1 };
        meaning.definitions[**reached] == Definition::Variable && inputs[meaning.originals[**reached]] > greatest(width)
    };
    if walk.iter().any(|reached| is_too_wide(&reached)) {
        return Err(Refusal::because(16));
    }
    let numbers = ir_numbers(meaning, &walk, inputs);
    match walk.iter().find(|reached| numbers[**reached].is_none()) {
        Some(trapped) => Err(Refusal::at(17, *trapped)),
        None => Ok(numbers[value].unwrap_or(0)),
    }
}

/// What a word computes at a width, or none where it is undefined.
pub fn word_number(word: &str, width: u16, operands: &[Sized]) -> Option<u64> {
    let modulus = |width: u16| 1i128 << width;
    let unsigned = |place: usize| i128::from(operands[place].0);
    let signed = |place: usize| {
        let (number, width) = operands[place];
        let number = i128::from(number);
        if number < modulus(width - 1) { number } else { number - modulus(width) }
    };
    let wrapped = |number: i128| number.rem_euclid(modulus(width)) as u64;
    let clamped = |number: i128| wrapped(number.clamp(-modulus(width - 1), modulus(width - 1) - 1));
    let bit = |place: usize, at: u16| operands[place].0 >> at & 1;
    let bitwise = |of: &dyn Fn(u16) -> u64| (0..width).map(|at| of(at) << at).sum();
    let is_least_by_minus_one = || signed(0) == -modulus(operands[0].1 - 1) && signed(1) == -1;
    Some(match word {
        "add" => wrapped(unsigned(0) + unsigned(1)),
        "mul" => (u128::from(operands[0].0) * u128::from(operands[1].0) % (1 << width)) as u64,
        "udiv" | "urem" | "sdiv" | "srem" if operands[1].0 == 0 => return None,
        "sdiv" | "srem" if is_least_by_minus_one() => return None,
        "udiv" => wrapped(unsigned(0) / unsigned(1)),
        "urem" => wrapped(unsigned(0) % unsigned(1)),
        "sdiv" => wrapped(signed(0) / signed(1)),
        "srem" => wrapped(signed(0) % signed(1)),
        "and" => bitwise(&|at| bit(0, at) * bit(1, at)),
        "or" => bitwise(&|at| bit(0, at).max(bit(1, at))),
        "xor" => bitwise(&|at| (bit(0, at) + bit(1, at)) % 2),
        "shl" | "ashr" | "lshr" if operands[1].0 >= u64::from(width) => return None,
        "shl" => (u128::from(operands[0].0) * (1 << operands[1].0) % (1 << width)) as u64,
        "ashr" => wrapped(signed(0).div_euclid(1 << operands[1].0)),
        "lshr" => wrapped(unsigned(0) / (1 << operands[1].0)),
        "select" => operands[if operands[0].0 == 1 { 1 } else { 2 }].0,
        "zext" => operands[0].0,
        "sext" => wrapped(signed(0)),
        "eq" => u64::from(unsigned(0) == unsigned(1)),
        "ne" => u64::from(unsigned(0) != unsigned(1)),
        "slt" => u64::from(signed(0) < signed(1)),
        "sle" => u64::from(signed(0) <= signed(1)),
        "ult" => u64::from(unsigned(0) < unsigned(1)),
        "ule" => u64::from(unsigned(0) <= unsigned(1)),
        "ctpop" => (0..width).map(|at| bit(0, at)).sum(),
        "bitreverse" => bitwise(&|at| bit(0, width - 1 - at)),
        "ctlz" => (0..width).rev().take_while(|at| bit(0, *at) == 0).count() as u64,
        "cttz" => (0..width).take_while(|at| bit(0, *at) == 0).count() as u64,
        "sadd.sat" => clamped(signed(0) + signed(1)),
        "ssub.sat" => clamped(signed(0) - signed(1)),
        "usub.sat" => wrapped((unsigned(0) - unsigned(1)).max(0)),
        _ => unreachable!("{word} is no word"),
    })
}

/// The numbers of rows; none where a row is undefined. `inputs` has one number for each row, of which those of variables are read.
pub fn row_numbers(rows: &[Row], inputs: &[u64]) -> Vec<Option<u64>> {
    let mut numbers: Vec<Option<u64>> = vec![];
    for (number, Row { width, word, operands }) in rows.iter().enumerate() {
        if *word == VAR {
            numbers.push(Some(inputs[number]));
            continue;
        }
        let sized = |operand: &Operand| match operand {
            Operand::Row(row) => Some((numbers[*row]?, rows[*row].width)),
            Operand::Constant(constant, Some(width)) => Some((*constant as u64 & greatest(*width), *width)),
            // the helper's zero
            Operand::Constant(constant, None) => Some((*constant as u64, 64)),
        };
        let operands: Option<Vec<Sized>> = operands.iter().map(sized).collect();
        numbers.push(operands.and_then(|operands| word_number(word, *width, &operands)));
    }
    numbers
}

/// The number on a row of a translation, whose rows keep Souper's width check.
pub fn row_number(rows: &[Row], row: usize, inputs: &[u64]) -> Result<u64, Refusal> {
    if row >= rows.len() {
        return Err(Refusal::because(1));
    }
    if inputs.len() < rows.len() {
        return Err(Refusal::at(14, rows.len()));
    }
    let up_to = &rows[..=row];
    if up_to.iter().zip(inputs).any(|(row, input)| row.word == VAR && *input > greatest(row.width)) {
        return Err(Refusal::because(16));
    }
    let numbers = row_numbers(up_to, inputs);
    match numbers.iter().position(Option::is_none) {
        Some(undefined) => Err(Refusal::at(18, undefined)),
        None => Ok(numbers[row].unwrap_or(0)),
    }
}

/// For each row of a translation the IR number of the value that it stands for, if it is a variable and there is one, and else 0.
pub fn row_inputs(meaning: &Meaning, translation: &Translation, inputs: &[u64]) -> Vec<u64> {
    let mut row_inputs = vec![0; translation.rows.len()];
    for value in &translation.values {
        if let Some(row) = translation.row_of[*value].filter(|row| translation.rows[*row].word == VAR) {
            row_inputs[row] = ir_number(meaning, *value, inputs).unwrap_or(0);
        }
    }
    row_inputs
}

/// The same as `souper_harvest --eval` has them: the row of a variable holds the variable's input, whatever its type and however wide the input.
pub fn shown_row_inputs(meaning: &Meaning, translation: &Translation, inputs: &[u64]) -> Vec<u64> {
    let mut row_inputs = row_inputs(meaning, translation, inputs);
    for value in &translation.values {
        if meaning.definitions[*value] == Definition::Variable {
            if let Some(row) = translation.row_of[*value] {
                row_inputs[row] = inputs[meaning.originals[*value]];
            }
        }
    }
    row_inputs
}
