//! Compares verdicts on damaged images with the second implementation's, and the candidates of those that are accepted.
use crate::damage::damage;
use crate::generate::{random_graph, random_graph_of};
use crate::harvests::Tally;
use crate::image::{read_image, write_image};
use crate::judge::judge;
use crate::random::{Random, Use};
use crate::refusal::{Refusal, verdict_spelled};
use crate::run::{Item, Run, replay_each};
use crate::table::{Line, grouped, set_aside_text};
use std::collections::BTreeMap;
use std::path::Path;
use std::{fs, io};

const BATCH_IMAGES: usize = 2000;

struct Due {
    /// Of the file, with its ending.
    name: String,
    image: Vec<u8>,
    verdict: Result<(), Refusal>,
}

impl Item for Due {
    fn name(&self) -> &str {
        &self.name
    }
}

/// The so many-th damaged image of a seed: mostly of a small graph.
pub fn damaged_image(seed: u64, index: usize) -> Vec<u8> {
    let random = &mut Random::new(seed, Use::Damage, index as u64);
    let graph = if random.chance(2) {
        random_graph(random)
    } else {
        let size = 3 + random.below(40);
        random_graph_of(random, size)
    };
    damage(random, &write_image(&graph))
}

fn put_files(folder: &Path, items: &[Due]) -> io::Result<()> {
    let mut answers = String::new();
    for Due { name, image, verdict } in items {
        fs::write(folder.join(name), image)?;
        answers += &format!("{name} {}\n", verdict_spelled(*verdict));
    }
    fs::write(folder.join("answers.txt"), answers)
}

fn replay(run: &mut Run, batch: &[Due]) -> io::Result<()> {
    replay_each(run, "verdicts", batch, put_files, |run, due, said| {
        let due_verdict = verdict_spelled(due.verdict);
        match said {
            Ok([verdict]) if *verdict == due_verdict => Ok(()),
            Ok(lines) => run.disagree(&due.name, &lines.join("; "), &[("", &due.image)]),
            Err(stopped) => run.disagree(&due.name, &format!("replay stopped, and {due_verdict} is due: {stopped}"), &[("", &due.image)]),
        }
    })
}

/// Compares the verdicts on damaged images, and the candidates of those that are accepted.
pub fn compare(run: &mut Run, images: usize) -> io::Result<Vec<Line>> {
    let before = run.disagreements;
    let mut by_number: BTreeMap<u8, usize> = BTreeMap::new();
    let mut accepted = vec![];
    let mut batch = vec![];
    for index in 0..images {
        let image = damaged_image(run.seed, index);
        let verdict = judge(&image);
        match verdict {
            Ok(()) => accepted.push(index),
            Err(Refusal { number, .. }) => *by_number.entry(number).or_default() += 1,
        }
        batch.push(Due { name: format!("damaged-{index:06}.img"), image, verdict });
        if batch.len() == BATCH_IMAGES || index + 1 == images {
            replay(run, &std::mem::take(&mut batch))?;
        }
        run.tell_progress("verdicts", index + 1, images);
    }
    let refused: Vec<String> = by_number.iter().map(|(number, count)| format!("{} with {number}", grouped(*count))).collect();
    let verdicts = Line {
        what: "verdicts on damaged images, with number and place".to_string(),
        count: format!("{}: {} accepted, refused {}", grouped(images), grouped(accepted.len()), refused.join(", ")),
        disagreements: run.disagreements - before,
        set_aside: "none".to_string(),
    };
    let before = run.disagreements;
    let mut tally = Tally::default();
    for index in accepted {
        let image = damaged_image(run.seed, index);
        let graph = read_image(&image);
        tally.add(run, format!("accepted-{index:06}"), image, &graph)?;
    }
    tally.finish(run)?;
    let candidates = Line {
        what: "candidates of the accepted ones, texts and all".to_string(),
        count: format!("{} graphs, {} candidates", grouped(tally.graphs), grouped(tally.candidates)),
        disagreements: run.disagreements - before,
        set_aside: set_aside_text(tally.set_aside),
    };
    Ok(vec![verdicts, candidates])
}
