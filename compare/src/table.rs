//! The table of what was compared.

/// One comparison.
pub struct Line {
    pub what: String,
    pub count: String,
    pub disagreements: usize,
    /// What the unchanged Rust does otherwise by the difference that docs/DIFFERENCES.md names.
    pub set_aside: String,
}

/// Prints the table, in Markdown.
pub fn print(lines: &[Line]) {
    println!("| what | how many | disagreements | set aside |");
    println!("|---|---|---|---|");
    for Line { what, count, disagreements, set_aside } in lines {
        let disagreements = match disagreements {
            0 => "none".to_string(),
            some => grouped(*some),
        };
        println!("| {what} | {count} | {disagreements} | {set_aside} |");
    }
}

/// How many candidates of the Rust are set aside.
pub fn set_aside_text(candidates: usize) -> String {
    match candidates {
        0 => "none".to_string(),
        some => format!("{} candidates over a shift of two widths", grouped(some)),
    }
}

/// A number with a comma before each three digits.
pub fn grouped(number: usize) -> String {
    let digits = number.to_string();
    let mut grouped = String::new();
    for (place, digit) in digits.char_indices() {
        if place > 0 && (digits.len() - place).is_multiple_of(3) {
            grouped.push(',');
        }
        grouped.push(digit);
    }
    grouped
}
