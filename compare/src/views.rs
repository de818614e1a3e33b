//! Compares what our program prints of graphs behind views: pins, candidates and numbers.
use crate::evaluate::{ir_number, row_number, shown_row_inputs};
use crate::generate::random_graph;
use crate::graph::Graph;
use crate::harvests::{due_texts, first_difference};
use crate::image::write_image;
use crate::meaning::{Definition, Meaning};
use crate::random::{Random, Use};
use crate::refusal::Refusal;
use crate::run::Run;
use crate::table::{Line, grouped, set_aside_text};
use crate::translation::{candidates, translate};
use std::path::Path;
use std::{fs, io};

/// So many values are evaluated in each view.
const NUMBERS: usize = 2;

/// How a graph is shown.
struct View {
    pins: Vec<(usize, i64)>,
    /// What is due of each pin.
    answers: Vec<Result<(), Refusal>>,
    is_resolved: bool,
    /// What is seen, as rows for the Rust, and as a meaning for the second implementation.
    graph: Graph,
    meaning: Meaning,
}

impl View {
    fn random(random: &mut Random, graph: &Graph) -> View {
        let mut view = View {
            pins: random_pins(random, &Meaning::of(graph)),
            answers: vec![],
            is_resolved: random.chance(50),
            graph: graph.clone(),
            meaning: Meaning::of(graph),
        };
        for (value, immediate) in &view.pins {
            let answer = view.meaning.pin(*value, *immediate);
            if answer.is_ok() {
                view.graph = view.graph.pinned(*value, *immediate);
            }
            view.answers.push(answer);
        }
        if view.is_resolved {
            view.graph = view.graph.resolved();
            view.meaning.resolve();
        }
        view
    }

    /// The arguments by which our program shows this view.
    fn arguments(&self) -> Vec<String> {
        let pins = self.pins.iter().flat_map(|(value, immediate)| ["--pin".to_string(), format!("v{value}={immediate}")]);
        pins.chain(self.is_resolved.then(|| "--resolve".to_string())).collect()
    }
}

/// Up to 20 pins, mostly of integer variables and to numbers in range.
fn random_pins(random: &mut Random, meaning: &Meaning) -> Vec<(usize, i64)> {
    let variables: Vec<usize> =
        (0..meaning.len()).filter(|value| meaning.is_integer(*value) && meaning.definitions[*value] == Definition::Variable).collect();
    let count = random.pick(&[0, 1, 3, 20]);
    let mut pins = vec![];
    for at in random.order(variables.len()).into_iter().chain(0..3).take(count) {
        let any = random.below(meaning.len() + 2);
        let value = variables.get(at).copied().filter(|_| random.chance(90)).unwrap_or(any);
        let ty = meaning.types.get(value).copied().unwrap_or(0);
        let in_range = random.number(ty.max(1)) as i64;
        // the first numbers out of range, or any
        let anywhere = [-1, 1i64.wrapping_shl(ty.into()), random.next() as i64];
        pins.push((value, if random.chance(90) { in_range } else { random.pick(&anywhere) }));
    }
    pins
}

/// A name that a candidate may carry: up to 64 printable characters, and no backtick.
fn random_name(random: &mut Random) -> String {
    let length = random.pick(&[0, 1, 8, 64]);
    let characters = (0..length).map(|_| char::from(32 + random.below(95) as u8));
    characters.map(|character| if character == '`' { '\'' } else { character }).collect()
}

/// Whether a printed line begins with what it is about and tells an answer: `LABEL = NUMBER`, or `LABEL: refused with NUMBER at PLACE: ..`.
fn tells(line: Option<&str>, label: &str, answer: Result<u64, Refusal>) -> bool {
    let line = line.unwrap_or("");
    match answer {
        Ok(number) => line == format!("{label} = {number}"),
        Err(refusal) => line.starts_with(&refused_with(label, refusal)),
    }
}

fn refused_with(label: &str, Refusal { number, place }: Refusal) -> String {
    format!("{label}: refused with {number} at {place}: ")
}

/// Compares the pins' refusals and the candidates of a view; answers how many candidates are due, and how many are set aside.
fn compare_candidates(run: &Run, random: &mut Random, image: &Path, view: &View) -> io::Result<Result<(usize, usize), String>> {
    let name = random_name(random);
    let (texts, set_aside) = match due_texts(&view.graph, &view.meaning, &name) {
        Ok(due) => due,
        Err(why) => return Ok(Err(why)),
    };
    let due = texts.concat();
    let own: String = candidates(&view.meaning).iter().map(|candidate| candidate.translation.text(&name)).collect();
    if own != due {
        return Ok(Err(format!("the Rust and the second implementation: {}", first_difference(&due, &own))));
    }
    let mut arguments = view.arguments();
    arguments.extend(["--function".to_string(), name]);
    let printed = run.programs.harvest(image, &arguments)?;
    if printed.out != due {
        return Ok(Err(format!("{}; {}", first_difference(&due, &printed.out), printed.err)));
    }
    // on standard error: the refused pins, and a closing line
    let mut lines = printed.err.lines();
    for ((value, immediate), answer) in view.pins.iter().zip(&view.answers) {
        if let Err(refusal) = *answer {
            let due = refused_with(&format!("pin v{value}={immediate}"), refusal);
            let line = lines.next().unwrap_or("");
            if !line.starts_with(&due) {
                return Ok(Err(format!("{line:?}, and {due:?} is due")));
            }
        }
    }
    let rest: Vec<&str> = lines.collect();
    let closing = format!(" instructions, {} candidates", texts.len());
    if rest.len() != 1 || !rest[0].ends_with(&closing) {
        return Ok(Err(format!("{rest:?}, and {closing:?} is due at the end")));
    }
    Ok(Ok((texts.len(), set_aside)))
}

/// Compares the number of a value behind a view, and the number on its row.
fn compare_number(run: &Run, random: &mut Random, image: &Path, view: &View) -> io::Result<Result<(), String>> {
    let meaning = &view.meaning;
    let value = random.below(meaning.len() + 1);
    let mut inputs = vec![0; meaning.len()];
    let mut arguments = view.arguments();
    for (variable, input) in inputs.iter_mut().enumerate() {
        let is_read = meaning.definitions[variable] == Definition::Variable && meaning.originals[variable] == variable;
        if is_read && random.chance(90) {
            *input = if random.chance(1) { random.next() } else { random.number(meaning.types[variable]) };
            arguments.extend(["--input".to_string(), format!("v{variable}={}", *input as i64)]);
        }
    }
    arguments.extend(["--eval".to_string(), format!("v{value}")]);
    let printed = run.programs.harvest(image, &arguments)?;
    let mut lines = printed.out.lines();
    let number = ir_number(meaning, value, &inputs);
    let mut is_due = tells(lines.next(), &format!("v{value}"), number);
    if meaning.is_live(value) {
        let translation = translate(meaning, value);
        let line = lines.next();
        is_due &= match translation.rows.len().checked_sub(1) {
            None => line == Some(&format!("v{value} is a constant, and has no row")),
            Some(last) => {
                let held = shown_row_inputs(meaning, &translation, &inputs);
                tells(line, &format!("%{last}"), row_number(&translation.rows, last, &held))
            }
        };
    }
    if is_due && lines.next().is_none() {
        return Ok(Ok(()));
    }
    Ok(Err(format!("with {}: {}{}, and {number:?} is due", arguments.join(" "), printed.out, printed.err)))
}

/// Compares random graphs behind random views.
pub fn compare(run: &mut Run, views: usize) -> io::Result<Vec<Line>> {
    let (mut pins, mut refused, mut resolved, mut due, mut set_aside) = (0, 0, 0, 0, 0);
    let (mut candidates_otherwise, mut numbers_otherwise) = (0, 0);
    let folder = run.batch_folder()?;
    for index in 0..views {
        let random = &mut Random::new(run.seed, Use::View, index as u64);
        let graph = random_graph(random);
        let view = View::random(random, &graph);
        let name = format!("view-{index:06}");
        let bytes = write_image(&graph);
        let image = folder.join(format!("{name}.img"));
        fs::write(&image, &bytes)?;
        pins += view.answers.iter().filter(|answer| answer.is_ok()).count();
        refused += view.answers.iter().filter(|answer| answer.is_err()).count();
        resolved += usize::from(view.is_resolved);
        match compare_candidates(run, random, &image, &view)? {
            Ok((more, more_aside)) => {
                due += more;
                set_aside += more_aside;
            }
            Err(why) => {
                candidates_otherwise += 1;
                run.disagree(&name, &format!("with {}: {why}", view.arguments().join(" ")), &[(".img", &bytes)])?;
            }
        }
        for _ in 0..NUMBERS {
            if let Err(why) = compare_number(run, random, &image, &view)? {
                numbers_otherwise += 1;
                run.disagree(&name, &why, &[(".img", &bytes)])?;
            }
        }
        fs::remove_file(&image)?;
        run.tell_progress("views", index + 1, views);
    }
    let candidates = Line {
        what: "candidates behind views, texts as the unchanged Rust sends them, and refused pins".to_string(),
        count: format!(
            "{} graphs, {} of them with operands resolved; {} pins, and {} refused; {} candidates",
            grouped(views),
            grouped(resolved),
            grouped(pins),
            grouped(refused),
            grouped(due)
        ),
        disagreements: candidates_otherwise,
        set_aside: set_aside_text(set_aside),
    };
    let numbers = Line {
        what: "IR numbers of values behind views, each with the number on its row".to_string(),
        count: grouped(views * NUMBERS),
        disagreements: numbers_otherwise,
        set_aside: "none".to_string(),
    };
    Ok(vec![candidates, numbers])
}
