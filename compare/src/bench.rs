//! Measures harvests, ours beside the unchanged Rust's, on the same graphs.
//!
//! Of the Rust the call is measured, over a channel whose receiver lets go of what came once the call is over; rows are not turned into text.
//! Of ours the crate `bench` measures the same: candidates asked for one by one, each let go, and a harvest that keeps them all.
use crate::cranelift::{self, ast, ir};
use crate::generate::Shape;
use crate::image::write_image;
use crate::meaning::Meaning;
use crate::random::{Random, Use};
use crate::run::Run;
use crate::table::grouped;
use crate::translation::candidates;
use std::sync::atomic::Ordering;
use std::sync::mpsc;
use std::time::{Duration, Instant};
use std::{fs, io};

const SIZES: [usize; 4] = [128, 256, 512, 1024];

/// A round harvests a graph so long with each program.
const ROUND: Duration = Duration::from_millis(60);

/// What a graph has, and the best time of each harvest in nanoseconds.
#[derive(Clone, Copy)]
struct Best {
    values: usize,
    steps: usize,
    rust: u64,
    one_by_one: u64,
    all_kept: u64,
}

/// Harvests so many times with the unchanged Rust; answers the best time in nanoseconds, and how many candidates came.
fn time_rust(function: &ir::Function, repeat: u32) -> (u64, usize) {
    let mut best = u64::MAX;
    let mut count = 0;
    for _ in 0..repeat {
        let (mut sender, receiver) = mpsc::channel();
        let start = Instant::now();
        cranelift::send_candidates(function, &mut sender);
        best = best.min(start.elapsed().as_nanos() as u64);
        drop(sender);
        count = receiver.into_iter().count();
    }
    (best, count)
}

/// The best time in the line about something, as `harvest, one by one: mean 5 ns, best 4 ns, 3 times`.
fn best_in(printed: &str, about: &str) -> Option<u64> {
    let line = printed.lines().find(|line| line.contains(about))?;
    line.split("best ").nth(1)?.split(' ').next()?.parse().ok()
}

/// Measures one graph in several rounds, in each of which the Rust and ours take turns.
fn measure(run: &mut Run, shape: Shape, size: usize, rounds: u32) -> io::Result<Option<Best>> {
    let graph = shape.graph(size, &mut Random::new(run.seed, Use::Bench, size as u64));
    let name = format!("{}-{size}", shape.name());
    let bytes = write_image(&graph);
    let image = run.batch_folder()?.join(format!("{name}.img"));
    fs::write(&image, &bytes)?;
    let function = cranelift::function_of(&graph, "f");
    let due = candidates(&Meaning::of(&graph));
    let steps = due.iter().map(|candidate| candidate.translation.steps).sum();
    let (once, count) = time_rust(&function, 3);
    let repeat = (ROUND.as_nanos() as u64 / once.max(1)).clamp(5, 10_000) as u32;
    let mut best = Best { values: graph.values.len(), steps, rust: once, one_by_one: u64::MAX, all_kept: u64::MAX };
    for _ in 0..rounds {
        best.rust = best.rust.min(time_rust(&function, repeat).0);
        let printed = run.programs.bench(&image, repeat)?;
        let found = (best_in(&printed.out, "one by one"), best_in(&printed.out, "all kept"));
        let has_count = printed.out.lines().any(|line| line == format!("{count} candidates"));
        let (Some(one_by_one), Some(all_kept), true) = (found.0, found.1, has_count && due.len() == count) else {
            let told = format!("{count} candidates of the Rust, {} are due: {}{}", due.len(), printed.out, printed.err);
            run.disagree(&name, &told, &[(".img", &bytes)])?;
            return Ok(None);
        };
        best.one_by_one = best.one_by_one.min(one_by_one);
        best.all_kept = best.all_kept.min(all_kept);
    }
    Ok(Some(best))
}

/// A time in a fitting unit.
fn time_text(nanos: u64) -> String {
    let nanos = nanos as f64;
    match nanos {
        ..1e6 => format!("{:.1} µs", nanos / 1e3),
        ..1e8 => format!("{:.2} ms", nanos / 1e6),
        _ => format!("{:.0} ms", nanos / 1e6),
    }
}

/// By how much something grew from one size to the next.
fn growth(before: Option<u64>, now: u64) -> String {
    before.map_or("".to_string(), |before| format!("× {:.1}", now as f64 / before as f64))
}

/// Measures all shapes at all sizes, and prints a table.
pub fn bench(run: &mut Run, rounds: u32) -> io::Result<()> {
    ast::WITHOUT_ROWS.store(true, Ordering::Relaxed);
    println!("Best of {rounds} rounds, in which the two programs take turns. A ratio is ours over the Rust's; steps are those of all");
    println!("candidates' walks, and growth is from the size before.\n");
    println!("| graph | values | steps | Rust | one by one | ratio | all kept | ratio | steps grow | Rust grows | one by one grows |");
    println!("|---|---|---|---|---|---|---|---|---|---|---|");
    for shape in Shape::ALL {
        let mut before: Option<Best> = None;
        for size in SIZES {
            let Some(best) = measure(run, shape, size, rounds)? else {
                continue;
            };
            println!(
                "| {} | {} | {} | {} | {} | {:.2} | {} | {:.2} | {} | {} | {} |",
                shape.name(),
                grouped(best.values),
                grouped(best.steps),
                time_text(best.rust),
                time_text(best.one_by_one),
                best.one_by_one as f64 / best.rust as f64,
                time_text(best.all_kept),
                best.all_kept as f64 / best.rust as f64,
                growth(before.map(|best| best.steps as u64), best.steps as u64),
                growth(before.map(|best| best.rust), best.rust),
                growth(before.map(|best| best.one_by_one), best.one_by_one),
            );
            before = Some(best);
        }
    }
    ast::WITHOUT_ROWS.store(false, Ordering::Relaxed);
    Ok(())
}
