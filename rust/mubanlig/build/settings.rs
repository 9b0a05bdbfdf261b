//! What the environment of a build says, and what is wrong with it in a sentence.

use std::ffi::OsStr;
use std::path::{Path, PathBuf};

/// The variable that names a folder with the six libraries.
pub const FOLDER: &str = "MUBANLIG_LIB_DIR";

/// The folder that the variable names, if it is set.
pub fn named_folder(value: Option<&OsStr>) -> Result<Option<PathBuf>, String> {
    let Some(value) = value else { return Ok(None) };
    let folder = Path::new(value);
    if value.is_empty() {
        return Err(format!(
            "{FOLDER} is set and empty: unset it, or name the folder with the six libraries"
        ));
    }
    if folder.is_relative() {
        return Err(format!(
            "{FOLDER} is the relative path {}: a build does not run where it was set, so name the folder from the root",
            folder.display()
        ));
    }
    Ok(Some(folder.to_path_buf()))
}

/// The libraries are machine code for x86-64 Linux.
pub fn check_target(target: &str, arch: &str, os: &str, pointer_width: &str) -> Result<(), String> {
    if (arch, os, pointer_width) == ("x86_64", "linux", "64") {
        return Ok(());
    }
    Err(format!(
        "the target is {target}, and the proved libraries are machine code for x86-64 Linux: \
         build with --target x86_64-unknown-linux-gnu"
    ))
}
