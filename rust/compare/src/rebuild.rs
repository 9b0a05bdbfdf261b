//! Another folder with the Rust's files: the oracle is compiled in, so the program is built again with these.

use std::path::{Path, PathBuf};
use std::process::{Command, ExitCode};
use std::{env, fs};

/// Whether the folder is another one than that compiled in.
pub fn is_other(folder: &Path) -> bool {
    let compiled_in = Path::new(oracle::FOLDER);
    [folder.to_path_buf(), folder.join("src")]
        .iter()
        .all(|dir| fs::canonicalize(dir).map_or(true, |dir| dir != compiled_in))
}

fn workspace() -> PathBuf {
    Path::new(env!("CARGO_MANIFEST_DIR")).join("..")
}

pub fn target_folder() -> PathBuf {
    workspace().join("target")
}

/// `cargo run` over a folder with the Rust's files, in a target folder of its own.
fn cargo_run(folder: &Path, target: &Path) -> Command {
    let mut command = Command::new(env::var_os("CARGO").unwrap_or_else(|| "cargo".into()));
    command
        .args(["run", "--quiet", "--package", "compare", "--manifest-path"])
        .arg(workspace().join("Cargo.toml"))
        .arg("--target-dir")
        .arg(target)
        .env("ORACLE_SRC", folder);
    command
}

/// Builds compare over the folder and runs it on the other words.
pub fn run_over(folder: &Path, words: &[String]) -> ExitCode {
    let target = target_folder().join("other-oracle");
    finish(folder, |folder| {
        let mut command = cargo_run(folder, &target);
        command
            .args(["--release", "--bin", "compare", "--"])
            .args(words);
        command
    })
}

/// Builds the replaying program alone, which needs no library of ours, and runs it on a stored list.
pub fn replay_over(folder: &Path, target: &Path, answers: &Path) -> Command {
    let mut command = cargo_run(folder, target);
    command.args(["--no-default-features", "--bin", "replay"]);
    for quick in ["opt-level=0", "debug=0"] {
        command.args(["--config", &format!("profile.dev.{quick}")]);
        for package in ["oracle", "compare"] {
            command.args([
                "--config",
                &format!("profile.dev.package.{package}.{quick}"),
            ]);
        }
    }
    command.arg("--").arg(answers);
    command
}

pub fn replay(folder: &Path, answers: &Path) -> ExitCode {
    let target = target_folder().join("other-replay");
    finish(folder, |folder| replay_over(folder, &target, answers))
}

fn finish(folder: &Path, command: impl FnOnce(&Path) -> Command) -> ExitCode {
    match fs::canonicalize(folder).and_then(|folder| command(&folder).status()) {
        Ok(status) => ExitCode::from(status.code().map_or(2, |code| code as u8)),
        Err(e) => {
            eprintln!("compare: {}: {e}", folder.display());
            ExitCode::from(2)
        }
    }
}
