//! A program run as a process on an input.

use super::Program;
use std::io::{self, Write};
use std::path::{Path, PathBuf};
use std::process::{Command, Stdio};
use std::{env, fs, process, thread};

/// What a program did with an input.
#[derive(Debug, Clone, PartialEq)]
pub struct Printed {
    pub output: Vec<u8>,
    pub errors: Vec<u8>,
    /// The exit status, if it was not ended by a signal.
    pub status: Option<i32>,
}

impl Printed {
    /// Whether it printed just this, and ended well.
    pub fn is(&self, text: &str) -> bool {
        self.output == text.as_bytes() && self.errors.is_empty() && self.status == Some(0)
    }
}

/// A folder that a program is run in, which is removed behind it.
pub struct Room {
    folder: PathBuf,
}

impl Room {
    pub fn new(name: &str) -> io::Result<Self> {
        let folder = env::temp_dir().join(format!("compare-{}-{name}", process::id()));
        fs::create_dir_all(&folder)?;
        Ok(Self { folder })
    }

    /// Runs the program that stands at a path: on standard input, or on the stored answers of its folder.
    pub fn run(&self, program: Program, path: &Path, input: &[u8]) -> io::Result<Printed> {
        let given: &[u8] = if program == Program::Vectors {
            fs::write(self.folder.join("answers"), input)?;
            &[]
        } else {
            input
        };
        let mut child = Command::new(path)
            .current_dir(&self.folder)
            .stdin(Stdio::piped())
            .stdout(Stdio::piped())
            .stderr(Stdio::piped())
            .spawn()?;
        let mut stdin = child.stdin.take();
        let output = thread::scope(|scope| {
            // A program may end before it has read everything.
            scope.spawn(move || stdin.as_mut().map(|stdin| stdin.write_all(given)));
            child.wait_with_output()
        })?;
        Ok(Printed {
            output: output.stdout,
            errors: output.stderr,
            status: output.status.code(),
        })
    }
}

impl Drop for Room {
    fn drop(&mut self) {
        // What can't be removed stays in the temporary folder.
        let _ = fs::remove_dir_all(&self.folder);
    }
}
