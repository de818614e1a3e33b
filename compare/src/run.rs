//! A run: its seed, our programs, the folder for files, and what disagreed so far.
use crate::ours::Programs;
use std::path::{Path, PathBuf};
use std::{fs, io};

/// So many disagreements are told in full, and leave their files behind.
const TOLD: usize = 10;

pub struct Run {
    pub seed: u64,
    pub programs: Programs,
    /// `batch` in it holds the files of a batch, and `disagreements` what is left behind.
    pub work: PathBuf,
    pub disagreements: usize,
}

impl Run {
    /// A run that begins with an empty folder for what it leaves behind.
    pub fn new(seed: u64, programs: Programs, work: PathBuf) -> io::Result<Run> {
        let run = Run { seed, programs, work, disagreements: 0 };
        empty_folder(&run.left_behind())?;
        Ok(run)
    }

    fn left_behind(&self) -> PathBuf {
        self.work.join("disagreements")
    }

    /// The folder of a batch, emptied.
    pub fn batch_folder(&self) -> io::Result<PathBuf> {
        let folder = self.work.join("batch");
        empty_folder(&folder)?;
        Ok(folder)
    }

    /// Tells on standard error how far a comparison is, ten times in all.
    pub fn tell_progress(&self, what: &str, done: usize, of: usize) {
        if done * 10 / of > (done - 1) * 10 / of {
            eprintln!("{what}: {done} of {of}");
        }
    }

    /// Counts a disagreement, and tells the first ones: what was compared, what it said, and the files to look at.
    pub fn disagree(&mut self, name: &str, told: &str, files: &[(&str, &[u8])]) -> io::Result<()> {
        self.disagreements += 1;
        if self.disagreements > TOLD {
            return Ok(());
        }
        println!("DISAGREEMENT {}: {name}: {told}", self.disagreements);
        for (kind, bytes) in files {
            let path = self.left_behind().join(format!("{name}{kind}"));
            fs::write(&path, bytes)?;
            println!("    left behind: {}", path.display());
        }
        println!();
        Ok(())
    }
}

fn empty_folder(folder: &Path) -> io::Result<()> {
    if folder.exists() {
        fs::remove_dir_all(folder)?;
    }
    fs::create_dir_all(folder)
}

/// Something that `replay` is asked about, under a name.
pub trait Item {
    fn name(&self) -> &str;
}

/// Lets `replay` go over items whose files `put` writes, and hands `tell` each item with the lines printed of it. Where `replay` stops
/// before its end, `tell` gets what it said instead, and the items behind that one are tried anew.
pub fn replay_each<T: Item>(
    run: &mut Run,
    kind: &str,
    items: &[T],
    put: impl Fn(&Path, &[T]) -> io::Result<()>,
    mut tell: impl FnMut(&mut Run, &T, Result<&[&str], &str>) -> io::Result<()>,
) -> io::Result<()> {
    let mut rest = items;
    while !rest.is_empty() {
        let folder = run.batch_folder()?;
        put(&folder, rest)?;
        let printed = run.programs.replay(kind, &folder)?;
        let mut lines = printed.out.lines().peekable();
        let mut done = 0;
        for item in rest {
            let mut said = vec![];
            while let Some(line) = lines.next_if(|line| line.starts_with(&format!("{}: ", item.name()))) {
                said.push(&line[item.name().len() + 2..]);
            }
            if said.is_empty() {
                tell(run, item, Err(&printed.err))?;
                done += 1;
                break;
            }
            tell(run, item, Ok(&said))?;
            done += 1;
        }
        rest = &rest[done..];
    }
    Ok(())
}
