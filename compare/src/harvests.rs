//! Compares candidates: texts with those that the unchanged Rust sends, and lists with the second implementation's.
use crate::cranelift;
use crate::generate::random_graph;
use crate::graph::Graph;
use crate::image::write_image;
use crate::meaning::Meaning;
use crate::random::{Random, Use};
use crate::run::{Item, Run, replay_each};
use crate::table::{Line, grouped, set_aside_text};
use crate::translation::{Candidate, candidates, list};
use std::path::Path;
use std::{fs, io};

/// `replay` calls the function so.
const NAME: &str = "f";

/// A batch holds at most so many bytes, and so many images.
const BATCH_BYTES: usize = 64 << 20;
const BATCH_IMAGES: usize = 1000;

/// An image, and what is due of it.
pub struct Due {
    name: String,
    image: Vec<u8>,
    text: String,
    list: String,
}

impl Item for Due {
    fn name(&self) -> &str {
        &self.name
    }
}

impl Due {
    fn bytes(&self) -> usize {
        self.image.len() + self.text.len() + self.list.len()
    }
}

/// What was compared so far.
#[derive(Default)]
pub struct Tally {
    pub graphs: usize,
    pub candidates: usize,
    /// Candidates of the Rust that reach a shift of two widths.
    pub set_aside: usize,
    batch: Vec<Due>,
}

impl Tally {
    /// Takes up a graph, and replays the batch once it is full.
    pub fn add(&mut self, run: &mut Run, name: String, image: Vec<u8>, graph: &Graph) -> io::Result<()> {
        let meaning = Meaning::of(graph);
        let found = candidates(&meaning);
        let (texts, set_aside) = match due_texts(graph, &meaning, NAME) {
            Ok(due) => due,
            Err(why) => return run.disagree(&name, &why, &[(".img", &image)]),
        };
        let text = texts.concat();
        let own_text: String = found.iter().map(|Candidate { translation, .. }| translation.text(NAME)).collect();
        if own_text != text {
            let told = format!("the Rust and the second implementation: {}", first_difference(&text, &own_text));
            run.disagree(&name, &told, &[(".img", &image), (".rust.txt", text.as_bytes()), (".second.txt", own_text.as_bytes())])?;
        }
        self.graphs += 1;
        self.candidates += texts.len();
        self.set_aside += set_aside;
        self.batch.push(Due { name, image, text, list: list(&found) });
        let bytes: usize = self.batch.iter().map(Due::bytes).sum();
        if bytes >= BATCH_BYTES || self.batch.len() >= BATCH_IMAGES {
            self.finish(run)?;
        }
        Ok(())
    }

    /// Replays what the batch holds.
    pub fn finish(&mut self, run: &mut Run) -> io::Result<()> {
        replay_each(run, "harvests", &std::mem::take(&mut self.batch), put_files, |run, due, said| {
            let told = match said {
                Err(stopped) => format!("replay stopped: {stopped}"),
                Ok(lines) => lines[1..].join("; "),
            };
            if told.is_empty() {
                return Ok(());
            }
            let told = format!("{told}{}", seen_by_program(run, due));
            let files: [(&str, &[u8]); 3] = [(".img", &due.image), (".txt", due.text.as_bytes()), (".list", due.list.as_bytes())];
            run.disagree(&due.name, &told, &files)
        })
    }
}

/// Where the text that our program prints of an image differs from the one that is due.
fn seen_by_program(run: &Run, due: &Due) -> String {
    let image = run.work.join("batch").join(format!("{}.img", due.name));
    match run.programs.harvest(&image, &[]) {
        Ok(printed) if printed.out != due.text => format!("; {}", first_difference(&due.text, &printed.out)),
        _ => String::new(),
    }
}

fn put_files(folder: &Path, items: &[Due]) -> io::Result<()> {
    let mut manifest = String::new();
    for Due { name, image, text, list } in items {
        fs::write(folder.join(format!("{name}.img")), image)?;
        fs::write(folder.join(format!("{name}.txt")), text)?;
        fs::write(folder.join(format!("{name}.list")), list)?;
        manifest += &format!("{name} \n");
    }
    fs::write(folder.join("MANIFEST"), manifest)
}

/// The texts that are due of a graph, and how many of the Rust's are set aside.
///
/// What is due is what the unchanged Rust sends for the graph in which each shift of two widths is an operation without translation. Of the
/// graph as it is the Rust must send the same for each root that reaches no such shift; what it sends for the others is set aside.
pub fn due_texts(graph: &Graph, meaning: &Meaning, name: &str) -> Result<(Vec<String>, usize), String> {
    let sent = cranelift::harvest(graph, name);
    let untranslated = graph.with_shifts_untranslated();
    if untranslated == *graph {
        return Ok((sent, 0));
    }
    let due = cranelift::harvest(&untranslated, name);
    let is_due_as_sent = |text: &&String| {
        let reached = meaning.walk(cranelift::root_of(text));
        !reached.iter().any(|value| meaning.is_shift_of_two_widths(*value))
    };
    let (sent_alike, set_aside): (Vec<&String>, Vec<&String>) = sent.iter().partition(is_due_as_sent);
    let due_alike: Vec<&String> = due.iter().filter(is_due_as_sent).collect();
    if sent_alike != due_alike {
        return Err("the Rust sends otherwise for a root that reaches no shift of two widths".to_string());
    }
    let set_aside = set_aside.len();
    Ok((due, set_aside))
}

/// The first line in which two texts differ.
pub fn first_difference(due: &str, found: &str) -> String {
    let mut number = 0;
    let (mut due, mut found) = (due.lines(), found.lines());
    loop {
        number += 1;
        match (due.next(), found.next()) {
            (None, None) => return "only the ends of lines differ".to_string(),
            (due, found) if due == found => {}
            (due, found) => {
                let or_end = |line: Option<&str>| line.map_or("the end".to_string(), |line| format!("{line:?}"));
                return format!("line {number} is {}, and {} is due", or_end(found), or_end(due));
            }
        }
    }
}

/// Compares the candidates of random graphs.
pub fn compare(run: &mut Run, graphs: usize) -> io::Result<Vec<Line>> {
    let before = run.disagreements;
    let mut tally = Tally::default();
    for index in 0..graphs {
        let graph = random_graph(&mut Random::new(run.seed, Use::Graph, index as u64));
        tally.add(run, format!("graph-{index:06}"), write_image(&graph), &graph)?;
        run.tell_progress("harvests", index + 1, graphs);
    }
    tally.finish(run)?;
    Ok(vec![Line {
        what: "candidates of random graphs: texts as the unchanged Rust sends them; roots, rows, counted operations, steps and places"
            .to_string(),
        count: format!("{} graphs, {} candidates", grouped(tally.graphs), grouped(tally.candidates)),
        disagreements: run.disagreements - before,
        set_aside: set_aside_text(tally.set_aside),
    }])
}
