//! Compares IR numbers of values and numbers on rows with the second implementation's.
use crate::evaluate::{ir_number, row_inputs, row_number};
use crate::generate::random_graph;
use crate::image::write_image;
use crate::meaning::Meaning;
use crate::random::{Random, Use};
use crate::refusal::{Refusal, spelled};
use crate::run::Run;
use crate::table::{Line, grouped};
use crate::translation::{VAR, translate};
use std::{fs, io};

/// So many questions are asked about a graph.
const OF_A_GRAPH: usize = 10;

const BATCH_QUESTIONS: usize = 2000;

/// What is asked, in the words of `replay`, and the answer that is due.
struct Question {
    text: String,
    due: Result<u64, Refusal>,
}

/// A question about the graph of an image.
fn question(random: &mut Random, image: &str, meaning: &Meaning) -> Result<Question, String> {
    let value = some_value(random, meaning);
    if random.chance(40) {
        let inputs = some_inputs(random, meaning);
        let inputs = spoiled(random, inputs);
        let text = format!("{image} ir v{value} {}", brackets(&inputs));
        return Ok(Question { text, due: ir_number(meaning, value, &inputs) });
    }
    if !meaning.is_live(value) {
        return Ok(Question { text: format!("{image} row v{value} 0 [0]"), due: Err(Refusal::because(1)) });
    }
    let translation = translate(meaning, value);
    let rows = &translation.rows;
    let asked = |row: usize, inputs: &[u64]| format!("{image} row v{value} {row} {}", brackets(inputs));
    if random.chance(50) && meaning.is_integer(value) && !rows.is_empty() {
        // variable rows that hold their values' IR numbers: the number on a value's row is then the value's
        let inputs = some_inputs(random, meaning);
        let held = row_inputs(meaning, &translation, &inputs);
        let reached = random.pick(&translation.values);
        let row = translation.row_of[reached].unwrap_or(rows.len() - 1);
        let stands_for = if translation.row_of[reached].is_some() { reached } else { value };
        let text = asked(row, &held);
        let due = row_number(rows, row, &held);
        let number = ir_number(meaning, stands_for, &inputs);
        if due.is_ok() && due != number {
            return Err(format!("{text}: {}, and v{stands_for} has the IR number {}", spelled(due), spelled(number)));
        }
        return Ok(Question { text, due });
    }
    let row = match random.below(20) {
        0 => rows.len() + random.below(3),
        1 => 2047 + random.below(3),
        _ => random.below(rows.len()),
    };
    let mut inputs: Vec<u64> = rows.iter().map(|row| if row.word == VAR { random.number(row.width) } else { 0 }).collect();
    inputs.resize(rows.len().max(1), 0);
    let inputs = spoiled(random, inputs);
    Ok(Question { text: asked(row, &inputs), due: row_number(rows, row, &inputs) })
}

/// Mostly a live integer; sometimes any value, or none that is there.
fn some_value(random: &mut Random, meaning: &Meaning) -> usize {
    let integers: Vec<usize> = (0..meaning.len()).filter(|value| meaning.is_integer(*value)).collect();
    if integers.is_empty() || random.chance(8) { random.below(meaning.len() + 2) } else { random.pick(&integers) }
}

/// A number for each value that fits its width.
fn some_inputs(random: &mut Random, meaning: &Meaning) -> Vec<u64> {
    meaning.types.iter().map(|ty| random.number((*ty).max(1))).collect()
}

/// Inputs that are sometimes too few, or too wide at one place.
fn spoiled(random: &mut Random, mut inputs: Vec<u64>) -> Vec<u64> {
    match random.below(20) {
        0 => inputs.truncate(1 + random.below(inputs.len())),
        1 | 2 => {
            let at = random.below(inputs.len());
            inputs[at] = random.next();
        }
        _ => {}
    }
    inputs
}

fn brackets(inputs: &[u64]) -> String {
    let numbers: Vec<String> = inputs.iter().map(u64::to_string).collect();
    format!("[{}]", numbers.join(","))
}

/// Lets `replay` answer questions about images whose files are in a folder, and tells where it answers otherwise.
fn replay(run: &mut Run, folder: &std::path::Path, questions: &[Question]) -> io::Result<()> {
    let lines: String = questions.iter().map(|Question { text, due }| format!("{text} = {}\n", spelled(*due))).collect();
    fs::write(folder.join("evals.txt"), &lines)?;
    let printed = run.programs.replay("numbers", folder)?;
    let mut otherwise = printed.out.lines();
    // the last line counts the answers
    let counted = otherwise.next_back().unwrap_or("");
    let otherwise: Vec<&str> = otherwise.collect();
    for line in &otherwise {
        let image = line.split(' ').next().unwrap_or("");
        let bytes = fs::read(folder.join(format!("{image}.img")))?;
        run.disagree(image, line, &[(".img", &bytes)])?;
    }
    if counted != format!("{} answers as due, {} otherwise", questions.len() - otherwise.len(), otherwise.len()) {
        let told = format!("replay stopped, or asked other questions: {counted} {}", printed.err);
        run.disagree("evals", &told, &[(".txt", lines.as_bytes())])?;
    }
    Ok(())
}

/// Compares the answers to questions about random graphs.
pub fn compare(run: &mut Run, questions: usize) -> io::Result<Vec<Line>> {
    let before = run.disagreements;
    let mut asked = 0;
    let mut refused = 0;
    let mut batch = vec![];
    let mut folder = run.batch_folder()?;
    for index in 0..questions.div_ceil(OF_A_GRAPH) {
        let random = &mut Random::new(run.seed, Use::Question, index as u64);
        let graph = random_graph(random);
        let meaning = Meaning::of(&graph);
        let name = format!("asked-{index:06}");
        let image = write_image(&graph);
        for _ in 0..OF_A_GRAPH.min(questions - asked) {
            asked += 1;
            match question(random, &name, &meaning) {
                Ok(question) => {
                    refused += usize::from(question.due.is_err());
                    batch.push(question);
                }
                Err(why) => run.disagree(&name, &why, &[(".img", &image)])?,
            }
        }
        fs::write(folder.join(format!("{name}.img")), image)?;
        if batch.len() >= BATCH_QUESTIONS || asked == questions {
            replay(run, &folder, &std::mem::take(&mut batch))?;
            folder = run.batch_folder()?;
        }
        run.tell_progress("numbers", asked, questions);
    }
    Ok(vec![Line {
        what: "IR numbers of values and numbers on rows, at random and at the ends of ranges".to_string(),
        count: format!("{}, of which {} are refused", grouped(asked), grouped(refused)),
        disagreements: run.disagreements - before,
        set_aside: "none".to_string(),
    }])
}
