//! The program in C: compiled as C and as C++, run, and run under valgrind where that is there.

use std::path::{Path, PathBuf};
use std::process::{Command, Stdio};

const FOLDER: &str = env!("CARGO_MANIFEST_DIR");
const WARNINGS: [&str; 4] = ["-Wall", "-Wextra", "-Werror", "-pedantic"];

fn is_there(command: &str) -> bool {
    Command::new(command)
        .arg("--version")
        .stdout(Stdio::null())
        .stderr(Stdio::null())
        .status()
        .is_ok_and(|status| status.success())
}

/// The program, unless there is no compiler.
fn compiled(variable: &str, default: &str, language: [&str; 3]) -> Option<PathBuf> {
    let words = std::env::var(variable).unwrap_or_else(|_| default.to_string());
    let mut words = words.split_whitespace();
    let compiler = words.next().unwrap_or(default);
    if !is_there(compiler) {
        eprintln!("skipped: there is no compiler {compiler}; {variable} may name another");
        return None;
    }
    let program = Path::new(env!("CARGO_TARGET_TMPDIR")).join(format!("calls-{default}"));
    let run = Command::new(compiler)
        .args(words)
        .args(language)
        .args(WARNINGS)
        .arg(format!("-I{FOLDER}/../../include"))
        .arg(format!("{FOLDER}/tests/c/calls.c"))
        .args(["-x", "none"])
        .args([
            "-L",
            env!("MUBANLIG_LIBRARIES"),
            "-lcapi_bits",
            "-lcapi",
            "-lcapi_tiles",
            "-lcapi_frame",
            "-lcapi_within",
            "-lcapi_grain",
            "-o",
        ])
        .arg(&program)
        .output()
        .unwrap();
    let said = String::from_utf8_lossy(&run.stderr);
    assert!(run.status.success(), "{compiler}: {said}");
    Some(program)
}

fn runs(mut command: Command) {
    let run = command.output().unwrap();
    let said = String::from_utf8_lossy(&run.stderr);
    assert!(run.status.success(), "{command:?}, {}: {said}", run.status);
    let last = String::from_utf8_lossy(&run.stdout);
    assert!(last.ends_with(" claims, 0 failed\n"), "{last}");
}

fn runs_alone_and_under_valgrind(program: &Path) {
    runs(Command::new(program));
    if !is_there("valgrind") {
        eprintln!("skipped: there is no valgrind");
        return;
    }
    let mut valgrind = Command::new("valgrind");
    valgrind
        .args(["--quiet", "--leak-check=full", "--error-exitcode=9"])
        .arg(program);
    runs(valgrind);
}

#[test]
fn as_c() {
    if let Some(program) = compiled("CC", "cc", ["-std=c99", "-x", "c"]) {
        runs_alone_and_under_valgrind(&program);
    }
}

#[test]
fn as_cpp() {
    if let Some(program) = compiled("CXX", "c++", ["-std=c++11", "-x", "c++"]) {
        runs_alone_and_under_valgrind(&program);
    }
}
