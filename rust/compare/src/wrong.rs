//! Wrong versions of the Rust and of the rules of old starts, of a limit, of rectangles and of writing, one line each, and how
//! many stored answers notice each of them.

use crate::rebuild;
use std::fmt::Write;
use std::path::{Path, PathBuf};
use std::sync::Mutex;
use std::sync::atomic::{AtomicUsize, Ordering::Relaxed};
use std::{fs, thread};

/// A line has a file, the function in it, the text there, and the wrong text, with tabs between them; `\n` stands for the
/// end of a line.
const VERSIONS: &str = include_str!("../wrong.tsv");

/// The Rust's files that the oracle is made of, and the rules, which are taken from beside them where they stand there.
const FILES: [&str; 8] = [
    "getbits.rs",
    "intops.rs",
    "headers.rs",
    "obu.rs",
    "cleared.rs",
    "within.rs",
    "rectangles.rs",
    "writing.rs",
];

/// Where the right version of a file stands.
fn right(file: &str) -> PathBuf {
    match file {
        "cleared.rs" => PathBuf::from(env!("CLEARED_RULE")),
        "within.rs" => PathBuf::from(env!("WITHIN_RULE")),
        "rectangles.rs" => PathBuf::from(env!("RECTANGLES_RULE")),
        "writing.rs" => PathBuf::from(env!("WRITING_RULE")),
        _ => Path::new(oracle::FOLDER).join(file),
    }
}

pub struct Version {
    pub file: String,
    pub function: String,
    pub old: String,
    pub new: String,
}

/// All wrong versions.
pub fn versions() -> Vec<Version> {
    VERSIONS.lines().map(Version::parse).collect()
}

impl Version {
    fn parse(line: &str) -> Self {
        let columns: Vec<String> = line
            .split('\t')
            .map(|text| text.replace("\\n", "\n"))
            .collect();
        let Ok([file, function, old, new]) = <[String; 4]>::try_from(columns) else {
            panic!("wrong.tsv: not four columns: {line}");
        };
        Self {
            file,
            function,
            old,
            new,
        }
    }

    /// The text of its file with the wrong text in the place of the first such text in the function.
    pub fn applied(&self, text: &str) -> String {
        let head = format!("fn {}(", self.function);
        let start = if self.function == "-" {
            Some(0)
        } else {
            text.find(&head)
        };
        let at = start.and_then(|start| Some(start + text[start..].find(&self.old)?));
        let at =
            at.unwrap_or_else(|| panic!("{}: {}: no '{}'", self.file, self.function, self.old));
        [&text[..at], &self.new, &text[at + self.old.len()..]].concat()
    }

    /// A row of the table, as one line.
    fn row(&self, noticed: &str) -> String {
        let line = |text: &str| {
            let words: Vec<&str> = text.split_whitespace().collect();
            words.join(" ").replace('|', "\\|")
        };
        format!(
            "| {} | `{}` | `{}` | {noticed} |\n",
            self.function,
            line(&self.old),
            line(&self.new)
        )
    }
}

/// The table: each version, and how many stored answers differ.
pub fn table(answers: &Path, threads: usize) -> Result<String, String> {
    let answers = fs::canonicalize(answers).map_err(|e| format!("{}: {e}", answers.display()))?;
    let versions = versions();
    let next = AtomicUsize::new(0);
    let rows = Mutex::new(vec![Err("not run".to_string()); versions.len()]);
    thread::scope(|scope| {
        for worker in 0..threads {
            let (versions, next, rows, answers) = (&versions, &next, &rows, &answers);
            scope.spawn(move || {
                while let Some((i, version)) = take(versions, next) {
                    let noticed = noticed(version, worker, answers);
                    eprintln!("{} of {}: {noticed:?}", i + 1, versions.len());
                    rows.lock().unwrap()[i] = noticed;
                }
            });
        }
    });
    let mut text =
        String::from("| function | right | wrong | answers that differ |\n|---|---|---|---:|\n");
    let mut fewest = u64::MAX;
    for (version, noticed) in versions.iter().zip(rows.into_inner().unwrap()) {
        let noticed = noticed?;
        fewest = fewest.min(noticed);
        text += &version.row(&crate::report::grouped(noticed));
    }
    writeln!(
        text,
        "\n{} wrong versions; the least number is {fewest}.",
        versions.len()
    )
    .unwrap();
    Ok(text)
}

fn take<'a>(versions: &'a [Version], next: &AtomicUsize) -> Option<(usize, &'a Version)> {
    let i = next.fetch_add(1, Relaxed);
    Some((i, versions.get(i)?))
}

/// Builds the replaying program over a copy with the wrong text, and takes the number from its last line.
fn noticed(version: &Version, worker: usize, answers: &Path) -> Result<u64, String> {
    let scratch = rebuild::target_folder().join(format!("wrong/{worker}"));
    let src: PathBuf = scratch.join("src");
    fs::create_dir_all(&src).map_err(|e| format!("{}: {e}", src.display()))?;
    for file in FILES {
        let from = right(file);
        let text = fs::read_to_string(&from).map_err(|e| format!("{}: {e}", from.display()))?;
        let text = if file == version.file {
            version.applied(&text)
        } else {
            text
        };
        fs::write(src.join(file), text).map_err(|e| format!("{}: {e}", src.display()))?;
    }
    let output = rebuild::replay_over(&src, &scratch, answers)
        .output()
        .map_err(|e| format!("cargo: {e}"))?;
    let text = String::from_utf8_lossy(&output.stdout);
    let last = text.lines().last().unwrap_or_default();
    let number = last
        .strip_suffix(" stored answers differ")
        .and_then(|line| line.split(' ').next());
    number
        .and_then(|number| number.parse().ok())
        .ok_or_else(|| {
            format!(
                "{} to {}: {}",
                version.old,
                version.new,
                String::from_utf8_lossy(&output.stderr)
            )
        })
}

#[cfg(test)]
mod tests {
    use super::*;

    #[test]
    fn each_version_changes_the_rust() {
        let versions = versions();
        assert!(versions.len() >= 60, "{} versions", versions.len());
        for version in versions {
            let text = fs::read_to_string(right(&version.file)).unwrap();
            assert_ne!(version.applied(&text), text, "{}", version.old);
        }
    }
}
