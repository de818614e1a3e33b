//! Says which text of Cranelift's harvester is compiled: the vendored one, or the file that HARVEST_SRC names.
use std::path::PathBuf;
use std::{env, fs};

const VENDORED: &str = "vendor/cranelift-codegen-0.137.1/souper_harvest.rs";

fn main() {
    println!("cargo::rerun-if-env-changed=HARVEST_SRC");
    // a relative path begins in this project's folder, where cargo runs this
    let named = env::var_os("HARVEST_SRC").unwrap_or(VENDORED.into());
    let text = fs::canonicalize(&named).unwrap_or_else(|why| panic!("the text of the harvester, {}: {why}", named.display()));
    println!("cargo::rerun-if-changed={}", text.display());
    println!("cargo::rustc-env=HARVEST_TEXT={}", text.display());
    let out = PathBuf::from(env::var_os("OUT_DIR").expect("cargo sets OUT_DIR"));
    // the text is not ours to change, so lints have nothing to say of it
    let declaration = format!("#[allow(clippy::all)]\n#[path = {text:?}]\nmod souper_harvest;\n");
    fs::write(out.join("declared.rs"), declaration).expect("OUT_DIR can be written");
}
