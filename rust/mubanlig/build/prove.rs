//! Has `rt` prove the libraries, and shows what it says while it works.

use std::collections::VecDeque;
use std::fs::File;
use std::io::{self, BufRead, BufReader, IsTerminal, Write};
use std::path::Path;
use std::process::{Command, Stdio};

/// The lines of `rt` that are repeated when it fails.
const LAST_LINES: usize = 40;

/// Shows lines while the build goes on.
pub struct Screen(Option<File>);

impl Screen {
    /// Cargo keeps what a build script prints until the script has failed, so lines go to cargo's own stderr where
    /// that is a terminal or a pipe; else to the script's, which `cargo build -vv` shows.
    pub fn new() -> Self {
        Self(cargo_stderr())
    }

    pub fn show(&mut self, line: &str) {
        match &mut self.0 {
            Some(stderr) => {
                // Over cargo's bar, which stands in the last line.
                let start = if stderr.is_terminal() { "\r\x1b[K" } else { "" };
                // A line that can't be shown is no reason to fail.
                drop(stderr.write_all(format!("{start}mubanlig: {line}\n").as_bytes()));
            }
            None => eprintln!("mubanlig: {line}"),
        }
    }
}

#[cfg(target_os = "linux")]
fn cargo_stderr() -> Option<File> {
    use std::os::unix::fs::{FileTypeExt, OpenOptionsExt};
    /// Don't wait for a reader of a pipe that nobody reads any more.
    const O_NONBLOCK: i32 = 0o4000;
    let path = format!("/proc/{}/fd/2", std::os::unix::process::parent_id());
    let kind = std::fs::metadata(&path).ok()?.file_type();
    if !kind.is_char_device() && !kind.is_fifo() {
        return None;
    }
    let mut options = File::options();
    options.write(true).custom_flags(O_NONBLOCK).open(path).ok()
}

#[cfg(not(target_os = "linux"))]
fn cargo_stderr() -> Option<File> {
    None
}

/// Runs `./staticlib NAME` in the project's root.
pub fn staticlib(root: &Path, name: &str, screen: &mut Screen) -> Result<(), String> {
    screen.show(&format!(
        "./staticlib {name} in {} (a minute or more)",
        root.display()
    ));
    match run(root, name, screen) {
        Ok((true, _)) => Ok(()),
        Ok((false, last)) => Err(format!(
            "`./staticlib {name}` failed in {}: nothing that is not proved is linked. It said last:\n{}",
            root.display(),
            Vec::from(last).join("\n")
        )),
        Err(e) if e.kind() == io::ErrorKind::NotFound => Err(format!(
            "Rattle's command `rt` is not on the path, and it has to prove the library {name} of {}: \
             put `rt` on the path, or set MUBANLIG_LIB_DIR to a folder with the six libraries",
            root.display()
        )),
        Err(e) => Err(format!("`./staticlib {name}` could not be run: {e}")),
    }
}

/// Whether it succeeded, and its last lines.
fn run(root: &Path, name: &str, screen: &mut Screen) -> io::Result<(bool, VecDeque<String>)> {
    // The script needs rt: where it isn't there, this says so.
    Command::new("rt").arg("version").output()?;
    let (reader, writer) = io::pipe()?;
    let mut command = Command::new(root.join("staticlib"));
    command
        .arg(name)
        .current_dir(root)
        .stdin(Stdio::null())
        .stdout(writer.try_clone()?)
        .stderr(writer);
    let mut child = command.spawn()?;
    // It holds the pipe's other end: without it the lines end when rt does.
    drop(command);
    let mut last = VecDeque::new();
    for line in BufReader::new(reader).split(b'\n') {
        let line = String::from_utf8_lossy(&line?).into_owned();
        screen.show(&line);
        if last.len() == LAST_LINES {
            last.pop_front();
        }
        last.push_back(line);
    }
    Ok((child.wait()?.success(), last))
}
