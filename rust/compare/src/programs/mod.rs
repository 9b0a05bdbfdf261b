//! The built programs, run as processes: what each prints has to be what the Rust's parsers and the request's rules make of the
//! input, in the words of docs/PROGRAMS.md.

mod answer;
mod drawing;
mod fields;
mod inputs;
mod process;
pub mod report;
mod run;
mod small;
mod stored;

pub use answer::{Answer, answer};
pub use inputs::Inputs;
pub use process::{Printed, Room};
pub use run::{Difference, Plan, Tally, run};

use std::fs;
use std::os::unix::fs::PermissionsExt;
use std::path::{Path, PathBuf};

/// The programs. Each is run on inputs of its own.
#[derive(Debug, Clone, Copy, PartialEq, Eq)]
pub enum Program {
    Tile,
    Seqhdr,
    Frame,
    Panel,
    Rects,
    Draw,
    Write,
    Over,
    Grain,
    /// Its input is the file of stored answers, which it reads from the folder that it is run in.
    Vectors,
}

impl Program {
    pub const ALL: [Self; 10] = [
        Self::Tile,
        Self::Seqhdr,
        Self::Frame,
        Self::Panel,
        Self::Rects,
        Self::Draw,
        Self::Write,
        Self::Over,
        Self::Grain,
        Self::Vectors,
    ];

    pub fn name(self) -> &'static str {
        match self {
            Self::Tile => "tile",
            Self::Seqhdr => "seqhdr",
            Self::Frame => "frame",
            Self::Panel => "panel",
            Self::Rects => "rects",
            Self::Draw => "draw",
            Self::Write => "write",
            Self::Over => "over",
            Self::Grain => "grain",
            Self::Vectors => "vectors",
        }
    }

    pub fn named(name: &str) -> Option<Self> {
        Self::ALL.into_iter().find(|program| program.name() == name)
    }

    pub fn number(self) -> u64 {
        self as u64
    }
}

/// Why the programs of a folder can't be run.
#[derive(Debug)]
pub enum Refusal {
    /// The folder has none, or can't be read.
    None(String),
    /// One of them is not known here.
    Unknown(String),
}

/// The programs that stand in a folder, in the order above: its executable files.
pub fn standing_in(folder: &Path) -> Result<Vec<(Program, PathBuf)>, Refusal> {
    let none = |why: String| Refusal::None(format!("{}: {why}", folder.display()));
    let folder = fs::canonicalize(folder).map_err(|e| none(e.to_string()))?;
    let files = fs::read_dir(&folder).map_err(|e| none(e.to_string()))?;
    let mut programs = Vec::new();
    for path in files.flatten().map(|file| file.path()) {
        if !is_executable(&path) {
            continue;
        }
        let name = path.file_name().unwrap_or_default().to_string_lossy();
        let program = Program::named(&name).ok_or_else(|| {
            Refusal::Unknown(format!(
                "there is no kind for the program {name}: rust/compare/src/programs has none"
            ))
        })?;
        programs.push((program, path));
    }
    if programs.is_empty() {
        return Err(none("no program stands there".to_string()));
    }
    programs.sort_unstable_by_key(|(program, _)| program.number());
    Ok(programs)
}

fn is_executable(path: &Path) -> bool {
    fs::metadata(path).is_ok_and(|file| file.is_file() && file.permissions().mode() & 0o111 != 0)
}

/// The folder in which the project's programs are built.
pub fn built() -> PathBuf {
    Path::new(env!("CARGO_MANIFEST_DIR")).join("../../target/bin")
}
