//! The part that runs programs: what it expects is what the examples of the crates print, and it notices what it has to.

use compare::options::Options;
use compare::programs::{Inputs, Program, answer};
use std::os::unix::fs::PermissionsExt;
use std::path::{Path, PathBuf};
use std::process::{Command, Output};
use std::{env, fs, process};

/// A folder with one program, a script, which is removed behind it.
struct Folder(PathBuf);

impl Folder {
    fn new(test: &str) -> Self {
        let folder = env::temp_dir().join(format!("programs-{}-{test}", process::id()));
        fs::create_dir_all(&folder).unwrap();
        Self(folder)
    }

    fn with(test: &str, name: &str, script: &str) -> Self {
        let folder = Self::new(test);
        let path = folder.0.join(name);
        fs::write(&path, format!("#!/bin/sh\n{script}\n")).unwrap();
        fs::set_permissions(&path, fs::Permissions::from_mode(0o755)).unwrap();
        folder
    }

    fn compare(&self) -> Output {
        Command::new(env!("CARGO_BIN_EXE_compare"))
            .args(["--short", "--threads", "2", "--programs"])
            .arg(&self.0)
            .output()
            .unwrap()
    }
}

impl Drop for Folder {
    fn drop(&mut self) {
        fs::remove_dir_all(&self.0).unwrap();
    }
}

/// It ends with a status, and says all of these.
fn ends(output: &Output, status: i32, words: &[&str]) {
    let text = [&output.stdout[..], &output.stderr].concat();
    let text = String::from_utf8_lossy(&text);
    assert_eq!(output.status.code(), Some(status), "{text}");
    for word in words {
        assert!(text.contains(word), "no '{word}' in: {text}");
    }
}

#[test]
fn the_crates_examples_are_what_is_expected() {
    let crates = Path::new(env!("CARGO_MANIFEST_DIR")).join("../../crates");
    for program in Program::ALL {
        let folder = crates.join(program.name());
        let input = if program == Program::Vectors {
            "data/answers"
        } else {
            "stdin"
        };
        let input = fs::read(folder.join(input)).unwrap();
        let stdout = fs::read_to_string(folder.join("stdout")).unwrap();
        assert_eq!(answer(program, &input).text, stdout, "{}", program.name());
    }
}

#[test]
fn each_program_of_the_project_has_a_kind() {
    let crates = Path::new(env!("CARGO_MANIFEST_DIR")).join("../../crates");
    let mut programs: Vec<String> = fs::read_dir(crates)
        .unwrap()
        .flatten()
        .filter(|folder| folder.path().join("src/main.rt").is_file())
        .map(|folder| folder.file_name().to_string_lossy().to_string())
        .collect();
    programs.sort_unstable();
    let mut kinds = Program::ALL.map(Program::name);
    kinds.sort_unstable();
    assert_eq!(programs, kinds);
}

#[test]
fn each_program_has_some_hundred_inputs_and_each_of_its_answers() {
    let answers: [&[i64]; 10] = [
        &[0, 2, 4],
        &[0, 1, 2, 3, 4],
        &[0, 1, 2, 4],
        &[0, 1, 2, 4, 6],
        &[0, 1, 2, 4],
        &[0, 1, 2, 4],
        &[0, 4, 5, 8],
        &[0, 2, 4],
        &[0, 4, 7],
        &[0, 1],
    ];
    for (program, wanted) in Program::ALL.into_iter().zip(answers) {
        let inputs = Inputs::of(program, 1, 200);
        assert!(inputs.count() >= 300, "{}", program.name());
        let mut seen: Vec<i64> = (0..inputs.count())
            .map(|i| answer(program, &inputs.input(i)).number)
            .collect();
        seen.sort_unstable();
        seen.dedup();
        assert_eq!(seen, wanted, "{}", program.name());
    }
}

#[test]
fn a_wrong_text_is_noticed() {
    let folder = Folder::with("text", "tile", "cat >/dev/null; echo 'no 4'");
    let zeros = r"printf '\x00\x00\x00\x00\x00\x00\x00\x00' | ./run tile";
    let line = "line 1 expected: ok N 1 1 0 1\n  line 1 printed : no 4\n";
    ends(
        &folder.compare(),
        1,
        &["tile\n", "input (8 bytes)", zeros, line],
    );
}

#[test]
fn a_word_on_standard_error_is_noticed() {
    let script = "cat >/dev/null; echo 'no 4'; echo oops >&2";
    let folder = Folder::with("error", "grain", script);
    ends(
        &folder.compare(),
        1,
        &[
            "grain\n",
            "printf '' | ./run grain",
            "on standard error: oops",
        ],
    );
}

#[test]
fn a_status_is_noticed() {
    let folder = Folder::with("status", "write", "cat >/dev/null; echo 'no 4'; exit 3");
    ends(
        &folder.compare(),
        1,
        &[
            "write\n",
            "printf '' | ./run write",
            "it ended with status 3",
        ],
    );
}

/// It says that all agree, which is true of no answer and of three of each operation: the first two lists.
#[test]
fn a_replay_that_cannot_fail_is_noticed() {
    let stdout = Path::new(env!("CARGO_MANIFEST_DIR")).join("../../crates/vectors/stdout");
    let script = format!(
        "n=0; if [ -s answers ]; then n=3; fi; sed \"s/ .*/ $n $n/\" '{}'",
        stdout.display()
    );
    let folder = Folder::with("stored", "vectors", &script);
    ends(&folder.compare(), 1, &["vectors\n", "> answers; vectors"]);
}

#[test]
fn a_program_without_a_kind_is_refused() {
    let folder = Folder::with("kind", "tiles", "true");
    ends(
        &folder.compare(),
        1,
        &["there is no kind for the program tiles"],
    );
}

#[test]
fn a_folder_without_programs_is_refused() {
    let folder = Folder::new("none");
    fs::write(folder.0.join("tile.txt"), "").unwrap();
    ends(&folder.compare(), 2, &["no program stands there"]);
}

#[test]
fn programs_are_run_alone() {
    let parse = |line: &str| {
        let words: Vec<String> = line.split(' ').map(str::to_string).collect();
        Options::parse(&words)
    };
    let short = parse("--programs bin --short").unwrap();
    assert_eq!((short.inputs, short.all), (200, false));
    assert_eq!(parse("--programs bin").unwrap().inputs, 30_000);
    assert_eq!(parse("--cases 50000").unwrap().inputs_behind(), 30_000);
    assert!(parse("--seed 2").unwrap().all);
    assert!(!parse("--kinds get_bit").unwrap().all);
    let refused = parse("--programs bin --kinds get_bit").unwrap_err();
    assert_eq!(refused, "--programs runs nothing else: leave out --kinds");
}
