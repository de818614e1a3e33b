//! Candidates, their rows and their text: docs/SPECIFICATION.md, "Rows", "The translation", "The harvest" and "The text of a candidate".
use crate::codes::{BNOT, ICMP, SELECT};
use crate::meaning::{Definition, Laid, Meaning};
use std::fmt::Write;

#[derive(Clone, Copy, Debug, PartialEq, Eq)]
pub enum Operand {
    Row(usize),
    /// A number, and its width if it has one.
    Constant(i64, Option<u16>),
}

#[derive(Clone, Debug, PartialEq, Eq)]
pub struct Row {
    pub width: u16,
    pub word: &'static str,
    pub operands: Vec<Operand>,
}

/// The word of a variable.
pub const VAR: &str = "var";

/// The rows of the values that a root reaches.
pub struct Translation {
    pub root: usize,
    /// The walk's values.
    pub values: Vec<usize>,
    pub rows: Vec<Row>,
    /// By value, the row that stands for it.
    pub row_of: Vec<Option<usize>>,
    /// How many operations with a translation there are.
    pub counted: usize,
    pub steps: usize,
}

/// Translates what a live value reaches.
pub fn translate(meaning: &Meaning, root: usize) -> Translation {
    let values = meaning.walk(root);
    let operands: usize = values.iter().map(|value| meaning.uses(*value).len()).sum();
    let mut translation = Translation {
        root,
        rows: vec![],
        row_of: vec![None; meaning.len()],
        counted: values.iter().filter(|value| meaning.word_of(**value).is_some()).count(),
        steps: 1 + values.len() + operands,
        values: vec![],
    };
    for value in &values {
        if let Some(row) = translation.row_for(meaning, *value) {
            translation.row_of[*value] = Some(translation.push(row));
        }
    }
    translation.values = values;
    translation
}

impl Translation {
    fn push(&mut self, row: Row) -> usize {
        self.rows.push(row);
        self.rows.len() - 1
    }

    /// A value as an operand.
    fn operand(&self, meaning: &Meaning, value: usize) -> Operand {
        match (&meaning.definitions[value], self.row_of[value]) {
            (Definition::Constant(number), _) => Operand::Constant(*number, Some(meaning.types[value])),
            (_, Some(row)) => Operand::Row(row),
            _ => unreachable!("a walk shows operands first"),
        }
    }

    /// A value's own row, before which its helper is pushed; a constant has none.
    fn row_for(&mut self, meaning: &Meaning, value: usize) -> Option<Row> {
        let width = meaning.types[value];
        let (opcode, word) = match (&meaning.definitions[value], meaning.word_of(value)) {
            (Definition::Constant(_), _) => return None,
            (Definition::Operation { opcode, .. }, Some(word)) => (*opcode, word),
            _ => return Some(Row { width, word: VAR, operands: vec![] }),
        };
        let mut operands: Vec<Operand> = meaning.uses(value).iter().map(|used| self.operand(meaning, *used)).collect();
        match opcode {
            BNOT => operands.push(Operand::Constant(-1, Some(width))),
            SELECT => operands[0] = self.condition(operands[0]),
            ICMP => {
                let helper = self.push(Row { width: 1, word, operands });
                return Some(Row { width, word: "zext", operands: vec![Operand::Row(helper)] });
            }
            _ => {}
        }
        Some(Row { width, word, operands })
    }

    /// The condition of a `select`, of one bit.
    fn condition(&mut self, operand: Operand) -> Operand {
        match operand {
            Operand::Constant(number, _) => Operand::Constant(i64::from(number != 0), Some(1)),
            row => {
                let zero = Operand::Constant(0, None);
                Operand::Row(self.push(Row { width: 1, word: "ne", operands: vec![row, zero] }))
            }
        }
    }

    /// The text, for a function of this name.
    pub fn text(&self, name: &str) -> String {
        let mut text = format!(";; Harvested from `v{}` in `{name}`\n", self.root);
        for (number, Row { width, word, operands }) in self.rows.iter().enumerate() {
            let spelled: Vec<String> = operands.iter().map(operand_text).collect();
            let gap = if spelled.is_empty() { "" } else { " " };
            let _ = writeln!(text, "%{number}:i{width} = {word}{gap}{}", spelled.join(", "));
        }
        text + &format!("infer %{}\n\n", self.rows.len().saturating_sub(1))
    }
}

fn operand_text(operand: &Operand) -> String {
    match operand {
        Operand::Row(row) => format!("%{row}"),
        Operand::Constant(number, Some(width)) => format!("{number}:i{width}"),
        Operand::Constant(number, None) => number.to_string(),
    }
}

/// A root that is the single result of an instruction, with the place behind that instruction.
pub struct Candidate {
    pub translation: Translation,
    pub next_block: usize,
    pub next_index: usize,
}

/// The candidates of a graph, in layout order.
pub fn candidates(meaning: &Meaning) -> Vec<Candidate> {
    let mut found = vec![];
    for Laid { block, index, single_result } in &meaning.layout {
        let Some(root) = single_result.filter(|result| meaning.is_integer(*result)) else {
            continue;
        };
        let translation = translate(meaning, root);
        if translation.counted >= 2 {
            found.push(Candidate { translation, next_block: *block, next_index: index + 1 });
        }
    }
    found
}

/// A line for each candidate, in the words of `replay`: its root, how many rows, counted operations and steps, and the place behind it.
pub fn list(candidates: &[Candidate]) -> String {
    let mut list = String::new();
    for Candidate { translation: t, next_block, next_index } in candidates {
        let (root, rows, counted, steps) = (t.root, t.rows.len(), t.counted, t.steps);
        let _ = writeln!(list, "root {root} rows {rows} counted {counted} steps {steps} place {next_block} {next_index}");
    }
    list
}
