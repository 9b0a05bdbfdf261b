//! Reads the Rust's files where they stand and puts them together as the modules of this crate.
//!
//! `getbits.rs`, `intops.rs` and `headers.rs` are taken whole. Of `obu.rs` only some items are taken (`items.rs`),
//! each with its text unchanged, because the rest needs modules that are not at hand. Behind two of the files
//! stands glue of our own (`src/glue`) that makes their private parts reachable.

include!("items.rs");

fn main() {
    let src = source_folder();
    write("intops.rs", &read(&src, "intops.rs"));
    write("headers.rs", &read(&src, "headers.rs"));
    write(
        "getbits.rs",
        &[&read(&src, "getbits.rs"), &*glue("getbits.rs")].join("\n"),
    );
    write(
        "obu.rs",
        &[&obu_items(&src), &*glue("obu.rs"), &*glue("callers.rs")].join("\n"),
    );
    println!("cargo::rustc-env=ORACLE_FOLDER={}", src.display());
}

fn glue(name: &str) -> String {
    println!("cargo::rerun-if-changed=items.rs");
    let path = Path::new("src/glue").join(name);
    println!("cargo::rerun-if-changed={}", path.display());
    fs::read_to_string(&path).unwrap_or_else(|e| panic!("{}: {e}", path.display()))
}
