//! The command line.

use crate::kind::Kind;
use std::path::PathBuf;

pub const USAGE: &str = "\
usage: compare [FOLDER] [--short] [--cases N] [--seed N] [--kinds A,B] [--exhaustive BYTES] [--threads N]
       compare [FOLDER] --programs FOLDER [--short] [--cases N] [--seed N] [--threads N]
       compare --vectors FILE
       compare [FOLDER] --replay FILE
       compare --wrong-versions FILE

Compares the proved library with the Rust, and then the programs of target/bin, if they are built there.
  FOLDER            the folder with the Rust's files; compare is built again with these
  --cases N         random cases of each kind (10000000)
  --seed N          seed of the random cases (1)
  --kinds A,B       only these kinds
  --exhaustive N    all inputs of up to N bytes, 0 to 2 (2)
  --threads N       threads (the machine's cores)
  --short           20000 random cases of each kind and all inputs of up to one byte, no programs: seconds
  --programs FOLDER run the programs that stand in FOLDER, and nothing else: each on inputs made by a rule and on 30000 random
                    ones (--cases); with --short 200
  --vectors FILE    write the stored list of the Rust's answers
  --replay FILE     replay a stored list on the Rust; the last line is 'N of M stored answers differ'
  --wrong-versions FILE   replay a stored list on each wrong version (wrong.tsv) of the Rust and of the rules, and print a table";

/// Random inputs of each program.
const INPUTS: u64 = 30_000;
/// Options that say nothing about programs.
const NOT_OF_PROGRAMS: [&str; 5] = [
    "--kinds",
    "--exhaustive",
    "--vectors",
    "--replay",
    "--wrong-versions",
];

#[derive(Debug)]
pub struct Options {
    pub folder: Option<PathBuf>,
    /// All words but the folder.
    pub rest: Vec<String>,
    pub cases: u64,
    /// Random inputs of each program.
    pub inputs: u64,
    pub seed: u64,
    pub kinds: Vec<Kind>,
    pub exhaustive_bytes: u32,
    pub threads: usize,
    /// The folder with the programs to run, and nothing else.
    pub programs: Option<PathBuf>,
    /// Whether the built programs are run behind all kinds.
    pub all: bool,
    pub vectors: Option<PathBuf>,
    pub replay: Option<PathBuf>,
    pub wrong_versions: Option<PathBuf>,
}

impl Options {
    pub fn parse(words: &[String]) -> Result<Self, String> {
        let mut options = Self {
            folder: None,
            rest: Vec::new(),
            cases: 10_000_000,
            inputs: INPUTS,
            seed: 1,
            kinds: Kind::ALL.to_vec(),
            exhaustive_bytes: 2,
            threads: std::thread::available_parallelism().map_or(1, usize::from),
            programs: None,
            all: true,
            vectors: None,
            replay: None,
            wrong_versions: None,
        };
        let mut words = words.iter();
        while let Some(word) = words.next() {
            if !word.starts_with('-') {
                if options.folder.replace(PathBuf::from(word)).is_some() {
                    return Err(format!("a second folder: {word}"));
                }
                continue;
            }
            if word == "--short" {
                options.rest.push(word.clone());
                options.cases = 20_000;
                options.inputs = 200;
                options.exhaustive_bytes = 1;
                options.all = false;
                continue;
            }
            let value = words.next().ok_or(format!("{word} needs a value"))?;
            options.rest.extend([word.clone(), value.clone()]);
            match word.as_str() {
                "--cases" => {
                    options.cases = number(word, value)?;
                    options.inputs = options.cases;
                }
                "--seed" => options.seed = number(word, value)?,
                "--kinds" => {
                    options.kinds = kinds(value)?;
                    options.all = false;
                }
                "--programs" => options.programs = Some(PathBuf::from(value)),
                "--exhaustive" => options.exhaustive_bytes = number(word, value)?.min(2) as u32,
                "--threads" => options.threads = number(word, value)?.max(1) as usize,
                "--vectors" => options.vectors = Some(PathBuf::from(value)),
                "--replay" => options.replay = Some(PathBuf::from(value)),
                "--wrong-versions" => options.wrong_versions = Some(PathBuf::from(value)),
                _ => return Err(format!("there is no option {word}")),
            }
        }
        let other = options
            .rest
            .iter()
            .find(|word| NOT_OF_PROGRAMS.contains(&word.as_str()));
        match other {
            Some(other) if options.programs.is_some() => {
                Err(format!("--programs runs nothing else: leave out {other}"))
            }
            _ => Ok(options),
        }
    }

    /// Random inputs of each program behind all kinds: no more than are of use.
    pub fn inputs_behind(&self) -> u64 {
        self.inputs.min(INPUTS)
    }
}

fn number(word: &str, value: &str) -> Result<u64, String> {
    value
        .replace('_', "")
        .parse()
        .map_err(|_| format!("{word} needs a number, not {value}"))
}

fn kinds(value: &str) -> Result<Vec<Kind>, String> {
    value
        .split(',')
        .map(|name| Kind::named(name).ok_or(format!("there is no kind {name}")))
        .collect()
}
