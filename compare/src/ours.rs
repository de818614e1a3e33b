//! The proved programs, run.
use std::io;
use std::path::{Path, PathBuf};
use std::process::{Command, Output};

/// The folder of our crates, in which CRATE/out/CRATE is a program.
pub struct Programs {
    pub crates: PathBuf,
}

/// What a program printed.
pub struct Printed {
    pub out: String,
    /// On standard error, and how it ended if not well.
    pub err: String,
}

impl Programs {
    fn path(&self, name: &str) -> PathBuf {
        self.crates.join(name).join("out").join(name)
    }

    /// Says what to do where a program is not there.
    pub fn need(&self, names: &[&str]) -> Result<(), String> {
        for name in names {
            let path = self.path(name);
            if !path.is_file() {
                return Err(format!(
                    "{} is not there.\n\
                     `bash .ci/run`, at the top of the repository, proves and builds all programs;\n\
                     `rt run`, in the folder crates/{name}, that one and what is below it.\n\
                     Built elsewhere, the folder of crates is told by --crates DIR.",
                    path.display()
                ));
            }
        }
        Ok(())
    }

    fn run(&self, name: &str, arguments: &mut Command) -> io::Result<Printed> {
        let Output { status, stdout, stderr } =
            arguments.output().map_err(|why| io::Error::new(why.kind(), format!("{}: {why}", self.path(name).display())))?;
        let mut err = String::from_utf8_lossy(&stderr).into_owned();
        if status.code().is_none() {
            err += &format!("({status})");
        }
        Ok(Printed { out: String::from_utf8_lossy(&stdout).into_owned(), err })
    }

    /// `replay KIND FOLDER`.
    pub fn replay(&self, kind: &str, folder: &Path) -> io::Result<Printed> {
        self.run("replay", Command::new(self.path("replay")).arg(kind).arg(folder))
    }

    /// `souper_harvest --image FILE ARGUMENTS`.
    pub fn harvest(&self, image: &Path, arguments: &[String]) -> io::Result<Printed> {
        let mut command = Command::new(self.path("souper_harvest"));
        self.run("souper_harvest", command.arg("--image").arg(image).args(arguments))
    }

    /// `bench FILE REPEAT`.
    pub fn bench(&self, image: &Path, repeat: u32) -> io::Result<Printed> {
        self.run("bench", Command::new(self.path("bench")).arg(image).arg(repeat.to_string()))
    }
}
