//! The Rust's own callers of the reader, with their text unchanged but for the import of the reader: ours. And the rules of
//! old starts, of a limit, of rectangles and of writing, which may be wrong versions.

include!("../oracle/items.rs");

/// The rules, and the variable that names each one's file: the copy that stands beside the Rust's files if there is one,
/// else ours.
const RULES: [(&str, &str); 4] = [
    ("cleared.rs", "CLEARED_RULE"),
    ("within.rs", "WITHIN_RULE"),
    ("rectangles.rs", "RECTANGLES_RULE"),
    ("writing.rs", "WRITING_RULE"),
];

/// The functions behind the items that call each of them.
const CALLERS: &str = "../oracle/src/glue/callers.rs";

fn main() {
    println!("cargo::rerun-if-changed=../oracle/items.rs");
    println!("cargo::rerun-if-changed={CALLERS}");
    let src = source_folder();
    let here = PathBuf::from(env::var("CARGO_MANIFEST_DIR").unwrap());
    for (file, variable) in RULES {
        let rule = if src.join(file).is_file() {
            src.join(file)
        } else {
            here.join("src").join(file)
        };
        println!("cargo::rerun-if-changed={}", rule.display());
        println!("cargo::rustc-env={variable}={}", rule.display());
    }
    if env::var_os("CARGO_FEATURE_OURS").is_none() {
        return;
    }
    let theirs = obu_items(&src);
    let ours = theirs.replace("use crate::getbits::GetBits;", "use mubanlig::GetBits;");
    assert_ne!(ours, theirs, "obu.rs doesn't import the reader");
    let call = fs::read_to_string(CALLERS).unwrap_or_else(|e| panic!("{CALLERS}: {e}"));
    write("obu.rs", &[ours, call].join("\n"));
    write("intops.rs", &read(&src, "intops.rs"));
}
