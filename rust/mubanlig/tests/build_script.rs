//! The parts of the build script that can be tried by themselves.

#[path = "../build/archive.rs"]
mod archive;
#[path = "../build/settings.rs"]
mod settings;
#[path = "../build/sources.rs"]
#[allow(dead_code)]
mod sources;

use archive::{Fault, check};
use settings::{check_target, named_folder};
use std::ffi::OsStr;
use std::fs::{self, File};
use std::path::{Path, PathBuf};
use std::time::{Duration, SystemTime};

const MARK: &str = "mubanlig_interface_";

fn library() -> Vec<u8> {
    fs::read(concat!(env!("MUBANLIG_LIBRARIES"), "/libcapi.a")).unwrap()
}

/// A library whose functions' names have the number of another interface.
fn renumbered(number: u8) -> Vec<u8> {
    let mut library = library();
    let name = b"mubanlig_interface_3";
    let at = library.windows(name.len()).position(|part| part == name);
    library[at.unwrap() + name.len() - 1] = number;
    library
}

#[test]
fn the_libraries_are_whole_and_of_the_interface() {
    for (name, mark) in [
        ("libcapi_bits.a", "mubanlig_bits_interface_"),
        ("libcapi.a", MARK),
        ("libcapi.a", "mubanlig_write_interface_"),
        ("libcapi_tiles.a", "mubanlig_tiles_interface_"),
        ("libcapi_frame.a", "mubanlig_frame_interface_"),
        ("libcapi_within.a", "mubanlig_within_interface_"),
        ("libcapi_grain.a", "mubanlig_grain_interface_"),
    ] {
        let path = Path::new(env!("MUBANLIG_LIBRARIES")).join(name);
        assert_eq!(check(&fs::read(path).unwrap(), mark, 3), Ok(()), "{name}");
    }
}

#[test]
fn another_interface_is_said() {
    let fault = check(&renumbered(b'2'), MARK, 3).unwrap_err();
    assert_eq!(fault.to_string(), "has interface 2, and this crate needs 3");
    for mark in [
        "mubanlig_bits_interface_",
        "mubanlig_tiles_interface_",
        "mubanlig_frame_interface_",
        "mubanlig_within_interface_",
        "mubanlig_grain_interface_",
    ] {
        let fault = check(&library(), mark, 3).unwrap_err();
        assert_eq!(fault, Fault::NoInterface { needed: 3 });
    }
}

#[test]
fn a_library_cut_anywhere_is_refused() {
    let library = library();
    assert_eq!(check(&[], MARK, 3), Err(Fault::NotALibrary));
    let steps = (1..library.len() - 1).step_by(library.len() / 500);
    for len in steps.chain([1, 7, 8, 9, 67, 68, library.len() - 2]) {
        let fault = check(&library[..len], MARK, 3).unwrap_err();
        // What ends behind the first words names no function.
        let expected = if len == 8 {
            Fault::NoInterface { needed: 3 }
        } else {
            Fault::Truncated
        };
        assert_eq!(fault, expected, "{len} bytes");
    }
}

#[test]
fn other_files_are_refused() {
    assert_eq!(check(b"\x7fELF", MARK, 3), Err(Fault::NotALibrary));
    let mut library = library();
    let object = library
        .windows(4)
        .position(|part| part == b"\x7fELF")
        .unwrap();
    library[object + 18] = 183;
    assert_eq!(check(&library, MARK, 3), Err(Fault::OtherMachine));
    library[object - 1] = b' ';
    assert_eq!(check(&library, MARK, 3), Err(Fault::NotALibrary));
}

#[test]
fn a_folder_is_named_from_the_root() {
    let named = |value: &str| named_folder(Some(OsStr::new(value)));
    assert_eq!(named_folder(None), Ok(None));
    assert_eq!(named("/usr/lib"), Ok(Some(PathBuf::from("/usr/lib"))));
    assert!(named("").unwrap_err().contains("is set and empty"));
    assert!(
        named("target/lib")
            .unwrap_err()
            .contains("relative path target/lib")
    );
}

#[test]
fn only_x86_64_linux_is_linked() {
    assert_eq!(
        check_target("x86_64-unknown-linux-musl", "x86_64", "linux", "64"),
        Ok(())
    );
    for (target, arch, os, width) in [
        ("aarch64-unknown-linux-gnu", "aarch64", "linux", "64"),
        ("x86_64-pc-windows-gnu", "x86_64", "windows", "64"),
        ("x86_64-unknown-linux-gnux32", "x86_64", "linux", "32"),
    ] {
        let why = check_target(target, arch, os, width).unwrap_err();
        assert!(why.contains(target) && why.contains("x86-64 Linux"));
    }
}

/// A project of one crate and two libraries, all changed at times of our own.
fn project(name: &str, source: SystemTime, libraries: SystemTime) -> PathBuf {
    let root = Path::new(env!("CARGO_TARGET_TMPDIR")).join(name);
    let _ = fs::remove_dir_all(&root);
    let write = |path: &str, at: SystemTime| {
        let path = root.join(path);
        fs::create_dir_all(path.parent().unwrap()).unwrap();
        fs::write(&path, "x").unwrap();
        File::options()
            .write(true)
            .open(path)
            .unwrap()
            .set_modified(at)
            .unwrap();
    };
    write("crates/one/src/source", source);
    write("crates.txt", source);
    write("lib/libone.a", libraries);
    write("lib/libtwo.a", libraries);
    for folder in ["crates/one/src", "crates/one", "crates"] {
        File::open(root.join(folder))
            .unwrap()
            .set_modified(source)
            .unwrap();
    }
    root
}

#[test]
fn a_library_older_than_a_source_is_stale() {
    let then = SystemTime::UNIX_EPOCH + Duration::from_secs(1_000_000);
    let later = then + Duration::from_nanos(1);
    let stale = |root: &Path| {
        let newest = sources::newest(root).unwrap();
        sources::stale(&root.join("lib"), &["libone.a", "libtwo.a"], &newest)
    };
    let root = project("fresh", then, then);
    assert_eq!(stale(&root), None);
    fs::remove_file(root.join("lib/libtwo.a")).unwrap();
    assert_eq!(stale(&root), Some(root.join("lib/libtwo.a")));
    let root = project("older", later, then);
    assert_eq!(stale(&root), Some(root.join("lib/libone.a")));
    // A file taken away changes its folder.
    let root = project("removed", then, then);
    fs::remove_file(root.join("crates/one/src/source")).unwrap();
    assert_eq!(stale(&root), Some(root.join("lib/libone.a")));
    assert_eq!(
        sources::newest(&root).unwrap().path,
        root.join("crates/one/src")
    );
}
