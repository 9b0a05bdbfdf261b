//! Finds the six static libraries of the proved reader, or has them proved, and tells cargo to link them.
//!
//! They are taken from the folder that `MUBANLIG_LIB_DIR` names; else from `target/staticlib` of the project, where
//! `./staticlib` proves and writes them if they are missing or older than the sources. What is linked is a copy that
//! was looked through: whole, for x86-64 Linux, and of the interface that this crate was written for.

mod archive;
mod prove;
mod settings;
mod sources;

use prove::Screen;
use std::fs::{self, File, TryLockError};
use std::io;
use std::path::{Path, PathBuf};
use std::{env, process};

/// The number of the interface, which each library says in the name of a function.
const INTERFACE: u32 = 3;

/// The crates, the libraries made of them, and the function before the interface's number.
const NAMES: [&str; 6] = [
    "capi_bits",
    "capi",
    "capi_tiles",
    "capi_frame",
    "capi_within",
    "capi_grain",
];
const LIBRARIES: [&str; 6] = [
    "libcapi_bits.a",
    "libcapi.a",
    "libcapi_tiles.a",
    "libcapi_frame.a",
    "libcapi_within.a",
    "libcapi_grain.a",
];
const MARKS: [&str; 6] = [
    "mubanlig_bits_interface_",
    "mubanlig_interface_",
    "mubanlig_tiles_interface_",
    "mubanlig_frame_interface_",
    "mubanlig_within_interface_",
    "mubanlig_grain_interface_",
];

fn main() {
    if let Err(why) = link() {
        for line in why.lines() {
            println!("cargo::error={line}");
        }
        process::exit(1);
    }
}

fn link() -> Result<(), String> {
    println!("cargo::rerun-if-changed=build");
    println!("cargo::rerun-if-env-changed={}", settings::FOLDER);
    let variable = |name: &str| env::var(name).unwrap_or_default();
    settings::check_target(
        &variable("TARGET"),
        &variable("CARGO_CFG_TARGET_ARCH"),
        &variable("CARGO_CFG_TARGET_OS"),
        &variable("CARGO_CFG_TARGET_POINTER_WIDTH"),
    )?;
    let root = sources::project(Path::new(&variable("CARGO_MANIFEST_DIR")));
    let linked = PathBuf::from(variable("OUT_DIR"));
    match (
        settings::named_folder(env::var_os(settings::FOLDER).as_deref())?,
        root,
    ) {
        (Some(folder), root) => take_named(&folder, root.as_deref(), &linked)?,
        (None, Some(root)) => take_proved(&root, &linked)?,
        (None, None) => {
            return Err(format!(
                "this crate does not stand in its project, so its libraries can't be proved: set {} to a folder with {}",
                settings::FOLDER,
                LIBRARIES.join(", ")
            ));
        }
    }
    println!("cargo::rustc-link-search=native={}", linked.display());
    for name in NAMES {
        println!("cargo::rustc-link-lib=static={name}");
    }
    // For the tests, which compile a program in C.
    println!("cargo::rustc-env=MUBANLIG_LIBRARIES={}", linked.display());
    Ok(())
}

/// Copies the libraries of a folder that the user named. Whether they are made of these sources is not known, so an
/// older one is said.
fn take_named(folder: &Path, root: Option<&Path>, linked: &Path) -> Result<(), String> {
    copy(folder, linked).map_err(|why| {
        format!(
            "{} names {}: {why}; name a folder to which `./staticlib` wrote all six, or unset it",
            settings::FOLDER,
            folder.display()
        )
    })?;
    let Some(root) = root else { return Ok(()) };
    watch(root);
    if let Ok(newest) = sources::newest(root)
        && let Some(library) = sources::stale(folder, &LIBRARIES, &newest)
    {
        println!(
            "cargo::warning={} is older than {}, and linked because {} names its folder",
            library.display(),
            newest.path.display(),
            settings::FOLDER
        );
    }
    Ok(())
}

/// Copies the project's libraries, and has them proved before if a source is newer. Another build waits meanwhile.
fn take_proved(root: &Path, linked: &Path) -> Result<(), String> {
    watch(root);
    let mut screen = Screen::new();
    let folder = root.join("target/staticlib");
    let lock = lock(root, &mut screen);
    let newest = sources::newest(root).map_err(|e| format!("the sources can't be read: {e}"))?;
    if let Some(library) = sources::stale(&folder, &LIBRARIES, &newest) {
        if let Err(e) = &lock {
            return Err(format!(
                "{} has to be proved and written, and the project's folder can't be written ({e}): \
                 make it writable, or set {} to a folder with the six libraries",
                library.display(),
                settings::FOLDER
            ));
        }
        screen.show(&if library.exists() {
            format!(
                "{} is older than {}",
                library.display(),
                newest.path.display()
            )
        } else {
            format!("{} is not there yet", library.display())
        });
        for (name, library) in NAMES.iter().zip(LIBRARIES) {
            prove::staticlib(root, name, &mut screen)?;
            // The time of the sources it was proved from: one that was changed meanwhile is newer.
            File::options()
                .write(true)
                .open(folder.join(library))
                .and_then(|file| file.set_modified(newest.at))
                .map_err(|e| format!("`./staticlib {name}` wrote no {library} ({e})"))?;
        }
    }
    copy(&folder, linked).map_err(|why| {
        format!(
            "{why}; remove {} and build again, so that it is proved and written anew",
            folder.display()
        )
    })
}

/// Cargo runs this again when anything of the sources changes.
fn watch(root: &Path) {
    for source in sources::parts(root) {
        println!("cargo::rerun-if-changed={}", source.display());
    }
}

/// Holds the project's folder until the file is dropped, as `./run` and `./test` do. In one that can't be written nothing is
/// proved.
fn lock(root: &Path, screen: &mut Screen) -> io::Result<File> {
    let folder = File::open(root)?;
    match folder.try_lock() {
        Ok(()) => {}
        Err(TryLockError::WouldBlock) => {
            screen.show(&format!(
                "another build, run or test works in {}: waiting for it",
                root.display()
            ));
            folder.lock()?;
        }
        Err(TryLockError::Error(e)) => return Err(e),
    }
    let written = root.join("target/staticlib");
    fs::create_dir_all(&written)?;
    let probe = written.join(".written");
    File::create(&probe)?;
    fs::remove_file(probe)?;
    Ok(folder)
}

/// Looks through the libraries of a folder and copies them to where they are linked from.
fn copy(folder: &Path, linked: &Path) -> Result<(), String> {
    for (library, mark) in LIBRARIES.into_iter().zip(MARKS) {
        let path = folder.join(library);
        println!("cargo::rerun-if-changed={}", path.display());
        let bytes = fs::read(&path).map_err(|e| match e.kind() {
            io::ErrorKind::NotFound => format!("{} is not there", path.display()),
            _ => format!("{} can't be read ({e})", path.display()),
        })?;
        archive::check(&bytes, mark, INTERFACE)
            .map_err(|fault| format!("{} {fault}", path.display()))?;
        let copy = linked.join(library);
        fs::write(&copy, bytes)
            .map_err(|e| format!("{} can't be written ({e})", copy.display()))?;
    }
    Ok(())
}
