// Shared by the build scripts of oracle and compare: where the Rust's files are, and items of obu.rs as they stand there.

use std::path::{Path, PathBuf};
use std::{env, fs};

/// Where the files are, seen from a crate of this workspace, unless ORACLE_SRC names another folder.
const DEFAULT_SRC: &str = "../../../shared/docs/src";

/// The first words of the items taken from obu.rs, in the order of the file.
const OBU_ITEMS: [&str; 21] = [
    "use crate::error::",
    "use crate::getbits::",
    "use crate::headers::",
    "use crate::intops::",
    "type Result<",
    "static LAYOUTS:",
    "fn check_trailing_bits(",
    "fn tile_log2(",
    "fn parse_seg_info(",
    "fn parse_tile_info(",
    "pub fn parse_tile_info_frmhdr(",
    "pub fn parse_film_grain_data(",
    "pub fn parse_seq_hdr(",
    "pub fn parse_fgm_hdr(",
    "pub(crate) fn parse_cll(",
    "pub(crate) fn parse_mdcv(",
    "pub fn parse_ci_hdr(",
    "fn u8_to_color_pri(",
    "fn u8_to_trc(",
    "fn u8_to_mc(",
    "fn u32_to_chr(",
];

/// A file of the Rust as it stands.
fn read(src: &Path, name: &str) -> String {
    let path = src.join(name);
    println!("cargo::rerun-if-changed={}", path.display());
    fs::read_to_string(&path).unwrap_or_else(|e| panic!("{}: {e}", path.display()))
}

/// The items taken from obu.rs, each with its text unchanged.
fn obu_items(src: &Path) -> String {
    let obu = read(src, "obu.rs");
    let items: Vec<String> = OBU_ITEMS.iter().map(|head| item(&obu, head)).collect();
    items.join("\n")
}

/// The folder that has getbits.rs: the one named, or its folder src.
fn source_folder() -> PathBuf {
    println!("cargo::rerun-if-env-changed=ORACLE_SRC");
    let here = PathBuf::from(env::var("CARGO_MANIFEST_DIR").unwrap());
    let named = match env::var("ORACLE_SRC") {
        Ok(dir) => PathBuf::from(dir),
        Err(_) => here.join(DEFAULT_SRC),
    };
    [named.clone(), named.join("src")]
        .into_iter()
        .find(|dir| dir.join("getbits.rs").is_file())
        .map(|dir| fs::canonicalize(dir).unwrap())
        .unwrap_or_else(|| {
            panic!(
                "no getbits.rs in {} or its folder src: set ORACLE_SRC to the folder with the Rust's files",
                named.display()
            )
        })
}

/// The item that starts with these words: from the attributes above it to its closing line.
fn item(text: &str, head: &str) -> String {
    let lines: Vec<&str> = text.lines().collect();
    let start = lines
        .iter()
        .position(|line| line.starts_with(head))
        .unwrap_or_else(|| panic!("obu.rs has no item '{head}'"));
    let above = lines[..start]
        .iter()
        .rev()
        .take_while(|line| line.starts_with("#[") || line.starts_with("///"))
        .count();
    let end = (start..lines.len())
        .find(|&i| lines[i] == "}" || lines[i] == "];" || (i == start && lines[i].ends_with(';')))
        .unwrap_or_else(|| panic!("the item '{head}' of obu.rs has no end"));
    lines[start - above..=end].join("\n") + "\n"
}

fn write(name: &str, text: &str) {
    let path = Path::new(&env::var("OUT_DIR").unwrap()).join(name);
    fs::write(&path, text).unwrap_or_else(|e| panic!("{}: {e}", path.display()));
}
