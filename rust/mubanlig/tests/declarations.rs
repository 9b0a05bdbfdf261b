//! The header's declarations, and those of this crate, are those of the proved crates.

use std::fs;
use std::path::{Path, PathBuf};

/// A parameter of a proved function: its name and its type.
type Parameter = (String, String);

/// A function that a proved crate exports.
struct Export {
    name: String,
    parameters: Vec<Parameter>,
    answer: Option<String>,
}

fn root() -> PathBuf {
    Path::new(env!("CARGO_MANIFEST_DIR")).join("../..")
}

fn read(path: &Path) -> String {
    fs::read_to_string(path).unwrap_or_else(|e| panic!("{}: {e}", path.display()))
}

fn exports() -> Vec<Export> {
    let mut list = Vec::new();
    for name in [
        "capi_bits",
        "capi",
        "capi_tiles",
        "capi_frame",
        "capi_within",
        "capi_grain",
    ] {
        for entry in fs::read_dir(root().join("crates").join(name).join("src")).unwrap() {
            let source = read(&entry.unwrap().path());
            let functions = source.split("pub extern \"C\" fn ").skip(1);
            list.extend(functions.map(export));
        }
    }
    list
}

fn export(text: &str) -> Export {
    let (name, rest) = text.split_once('(').unwrap();
    let (parameters, rest) = rest.split_once(')').unwrap();
    let parameters = parameters
        .split(',')
        .filter_map(|parameter| parameter.split_once(':'))
        .map(|(name, kind)| (name.trim().to_string(), kind.trim().to_string()))
        .collect();
    let answer = rest.trim_start().strip_prefix("-> ").map(|rest| {
        let end = rest.find(|c: char| !c.is_alphanumeric());
        rest[..end.unwrap_or(rest.len())].to_string()
    });
    Export {
        name: name.to_string(),
        parameters,
        answer,
    }
}

/// In a parameter's place: a pointer and a length for a slice, a pointer for what is lent, else the number.
fn crossing(
    (name, kind): &Parameter,
    number: fn(&str, &str) -> String,
    pointer: fn(&str, &str, bool) -> String,
) -> String {
    let Some(lent) = kind.strip_prefix('&') else {
        return number(name, kind);
    };
    let (written, lent) = match lent.strip_prefix("mut ") {
        Some(lent) => (true, lent),
        None => (false, lent),
    };
    match lent.strip_prefix('[').and_then(|of| of.strip_suffix(']')) {
        Some(entry) => {
            let length = number(&format!("{name}_len"), "usize");
            pointer(name, entry, written) + ", " + &length
        }
        None => pointer(name, lent, written),
    }
}

fn c_type(kind: &str) -> &str {
    match kind {
        "u8" => "uint8_t",
        "u16" => "uint16_t",
        "u32" => "uint32_t",
        "i16" => "int16_t",
        "i32" => "int32_t",
        "i64" => "int64_t",
        "usize" => "size_t",
        kind => panic!("no type {kind} crosses"),
    }
}

fn c_declaration(export: &Export) -> String {
    let list: Vec<String> = export
        .parameters
        .iter()
        .map(|parameter| {
            crossing(
                parameter,
                |name, kind| format!("{} {name}", c_type(kind)),
                |name, kind, written| {
                    let reads = if written { "" } else { "const " };
                    format!("{reads}{} *{name}", c_type(kind))
                },
            )
        })
        .collect();
    let answer = export.answer.as_deref().map_or("void", c_type);
    let list = if list.is_empty() {
        "void".to_string()
    } else {
        list.join(", ")
    };
    format!("{answer} {}({list});", export.name)
}

fn rust_declaration(export: &Export) -> String {
    let list: Vec<String> = export
        .parameters
        .iter()
        .map(|parameter| {
            crossing(
                parameter,
                |name, kind| format!("{name}: {kind}"),
                |name, kind, written| {
                    let way = if written { "mut" } else { "const" };
                    format!("{name}: *{way} {kind}")
                },
            )
        })
        .collect();
    let answer = export.answer.as_ref();
    let answer = answer.map_or(String::new(), |answer| format!(" -> {answer}"));
    format!("fn {}({}){answer};", export.name, list.join(", "))
}

/// The declarations of a text, in one line each and in the order of their names.
fn declarations(text: &str, is_one: fn(&str) -> bool) -> Vec<String> {
    let mut without_comments = String::new();
    for (i, part) in text.split("/*").enumerate() {
        let kept = if i == 0 {
            Some(part)
        } else {
            part.split_once("*/").map(|(_, rest)| rest)
        };
        without_comments += kept.unwrap_or_default();
    }
    let lines = without_comments.lines();
    let plain: Vec<&str> = lines
        .filter(|line| !line.trim_start().starts_with('#'))
        .collect();
    let plain = plain.join(" ").replace("extern \"C\" {", ";");
    let mut list: Vec<String> = plain
        .split_inclusive(';')
        .map(|item| item.split_whitespace().collect::<Vec<_>>().join(" "))
        .map(|item| item.replace("( ", "(").replace(", )", ")"))
        .filter(|item| is_one(item))
        .collect();
    list.sort();
    list
}

fn sorted(mut list: Vec<String>) -> Vec<String> {
    list.sort();
    list
}

#[test]
fn the_header_declares_what_is_proved() {
    let header = read(&root().join("include/mubanlig.h"));
    let declared = declarations(&header, |item| {
        item.contains(" mubanlig_") && item.contains('(')
    });
    assert_eq!(
        declared,
        sorted(exports().iter().map(c_declaration).collect())
    );
}

#[test]
fn this_crate_declares_what_is_proved() {
    let source = read(&Path::new(env!("CARGO_MANIFEST_DIR")).join("src/ffi.rs"));
    let (_, block) = source.split_once("unsafe extern \"C\" {").unwrap();
    let (block, _) = block.split_once("\n}").unwrap();
    let declared = declarations(block, |item| item.starts_with("fn "));
    assert_eq!(
        declared,
        sorted(exports().iter().map(rust_declaration).collect())
    );
}
