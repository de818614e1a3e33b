//! Cranelift's harvester, its text unchanged, over small stand-ins for the crates that it needs.
//!
//! The text names `crate::ir` and `souper_ir::ast`; `main.rs` sees to it that these are `ir` and `ast` here.
pub mod ast;
mod function;
pub mod ir;

pub use function::function_of;

use crate::graph::Graph;
use std::sync::mpsc;

// `mod souper_harvest`, from the file that build.rs settled on
include!(concat!(env!("OUT_DIR"), "/declared.rs"));

/// Where the text that was compiled comes from.
pub const TEXT_PATH: &str = env!("HARVEST_TEXT");

/// The text that was compiled.
pub const TEXT: &[u8] = include_bytes!(env!("HARVEST_TEXT"));

/// The texts of all candidates of a graph, in the order in which the harvester sends them.
pub fn harvest(graph: &Graph, name: &str) -> Vec<String> {
    let (mut sender, receiver) = mpsc::channel();
    send_candidates(&function_of(graph, name), &mut sender);
    drop(sender);
    receiver.into_iter().collect()
}

/// Runs the harvester.
pub fn send_candidates(function: &ir::Function, sender: &mut mpsc::Sender<String>) {
    souper_harvest::do_souper_harvest(function, sender);
}

/// The root of a candidate, which its heading names.
pub fn root_of(text: &str) -> usize {
    let name = text.split('`').nth(1).expect("a heading names the root");
    name.strip_prefix('v').and_then(|number| number.parse().ok()).expect("a root is a value")
}
