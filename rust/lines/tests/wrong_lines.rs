//! A count of the sequence's superblocks is never added to a count of the frame's: the lines below are put into the Rattle code, and the compiler has
//! to turn each of them down in the words that stand beside it. Rattle's front end compiles, with what a crate stands on as source; nothing is proved here.

use std::path::{Path, PathBuf};
use std::process::Command;
use std::{env, fs, io};

/// A place to put lines: a crate, a file of it, and the line behind which they are put.
struct Place {
    krate: &'static str,
    file: &'static str,
    behind: &'static str,
}

/// In the loop over a uniform layout's tiles: `sbx` counts the sequence's superblocks and `end` the frame's.
const FILL: Place = Place {
    krate: "tile_info",
    file: "uniform.rt",
    behind: "starts[i as usize] = sbx.in_frame(pair).number();",
};

/// Where a row of superblocks is split: `fsb` and `ssb` count the sequence's and `end` the frame's.
const SPLIT: Place = Place {
    krate: "tile_info",
    file: "uniform.rt",
    behind: "let split = even_split(fsb, ssb, log2);",
};

/// In the loop over the sizes of a non-uniform layout: `sbx` and `total` count the frame's superblocks.
const SIZES: Place = Place {
    krate: "tile_info",
    file: "nonuniform.rt",
    behind: "let z = read_size(s, next, total.minus(sbx), limit);",
};

/// In the loop over the starts of a reused layout: `starts` are the sequence's and `at` are the frame's.
const DOUBLED: Place = Place {
    krate: "frame_hdr",
    file: "reuse.rt",
    behind: "at[i as usize] = seq_start(starts, i).in_frame(pair).number();",
};

/// Where a reused layout is closed: `closing` counts the frame's superblocks.
const CLOSED: Place = Place {
    krate: "frame_hdr",
    file: "reuse.rt",
    behind: "at[tiles as usize] = closing_entry(starts, pair, tiles, closing).number();",
};

/// Where the frame's counts are compared with the sequence's.
const COUNTS: Place = Place {
    krate: "frame_hdr",
    file: "reuse.rt",
    behind: "let seq_sbh = pair.seq_count(not_below_0(max_height));",
};

/// The line, and what the compiler says of it.
const LINES: &[(&Place, &str, &str)] = &[
    // Sums of the two kinds.
    (
        &FILL,
        "sbx = sbx.plus(end);",
        "error[mismatched-types]: expected SeqSb, found FrameSb",
    ),
    (
        &FILL,
        "let mixed = sbx + end;",
        "error[invalid-operand-type]: + cannot be applied to SeqSb",
    ),
    (
        &FILL,
        "let mixed = end.plus(sbx);",
        "error[mismatched-types]: expected FrameSb, found SeqSb",
    ),
    (
        &FILL,
        "let mixed = sbx.in_frame(pair).plus(sbx);",
        "error[mismatched-types]: expected FrameSb, found SeqSb",
    ),
    (
        &FILL,
        "let mixed = sbx.0 + end.0;",
        "error[private-field]: field 0 of struct SeqSb is private",
    ),
    (
        &SPLIT,
        "let mixed = ssb + end;",
        "error[invalid-operand-type]: + cannot be applied to SeqSb",
    ),
    (
        &SPLIT,
        "let mixed = end.minus(fsb);",
        "error[mismatched-types]: expected FrameSb, found SeqSb",
    ),
    (
        &SPLIT,
        "let mixed = end.below(ssb);",
        "error[mismatched-types]: expected FrameSb, found SeqSb",
    ),
    // A bare number that leads around.
    (
        &FILL,
        "let mixed = sbx.number() + end.number();",
        "error[unknown-method]: no method named number found for type SeqSb",
    ),
    (
        &FILL,
        "let mixed = sbx.plus(seq_sb(end.number()));",
        "error[unknown-name]: cannot find value seq_sb in this scope",
    ),
    (
        &FILL,
        "let mixed = sbx.plus(SeqSb(starts[0] as u32));",
        "SeqSb is a struct with a field that is private here",
    ),
    (
        &SPLIT,
        "let mixed = ((n + 7) >> sbsz_log2(a.seq_code)) + end.number();",
        "error[unknown-name]: cannot find value sbsz_log2 in this scope",
    ),
    (
        &SPLIT,
        "let mixed = sb_count(n, a.seq_code) + sb_count(n, a.frame_code);",
        "error[unknown-name]: cannot find value sb_count in this scope",
    ),
    // What splits.
    (
        &SPLIT,
        "let mixed = split.extra + end;",
        "error[invalid-operand-type]: + cannot be applied to TileCount",
    ),
    (
        &SPLIT,
        "let mixed = split.tiles + end;",
        "error[invalid-operand-type]: + cannot be applied to TileCount",
    ),
    (
        &SPLIT,
        "let mixed = split.extra + end.number();",
        "error[invalid-operand-type]: + cannot be applied to TileCount",
    ),
    (
        &SPLIT,
        "let mixed = split.tiles + end.number();",
        "error[invalid-operand-type]: + cannot be applied to TileCount",
    ),
    (
        &SPLIT,
        "let mixed = split.tile.plus(end);",
        "error[mismatched-types]: expected SeqSb, found FrameSb",
    ),
    (
        &SPLIT,
        "let mixed = end.plus(split.tiles);",
        "error[mismatched-types]: expected FrameSb, found TileCount",
    ),
    (
        &SPLIT,
        "let mixed = even_split(end, ssb, log2);",
        "error[mismatched-types]: expected SeqSb, found FrameSb",
    ),
    // A multiplier from the caller's hand.
    (
        &FILL,
        "let mixed = sbx.in_frame(1).plus(end);",
        "error[mismatched-types]: expected Pair, found an integer",
    ),
    (
        &FILL,
        "let mixed = sbx.in_frame(Pair { frame_code: 1, seq_code: 1 }).plus(end);",
        "error[private-field]: field frame_code of struct Pair is private",
    ),
    // The frame's superblocks alone.
    (
        &SIZES,
        "let mixed = total + sbx;",
        "error[invalid-operand-type]: + cannot be applied to FrameSb",
    ),
    (
        &SIZES,
        "let mixed = total.times(sbx).plus(sbx);",
        "error[unknown-method]: no method named plus found for type AreaSb",
    ),
    (
        &SIZES,
        "let mixed = total.plus(tiles);",
        "error[mismatched-types]: expected FrameSb, found u8",
    ),
    // The starts of a reused layout.
    (
        &DOUBLED,
        "let mixed = seq_start(starts, i).plus(at[i as usize]);",
        "error[mismatched-types]: expected SeqSb, found u16",
    ),
    (
        &DOUBLED,
        "let mixed = seq_start(starts, i) + at[i as usize];",
        "error[invalid-operand-type]: + cannot be applied to SeqSb",
    ),
    (
        &DOUBLED,
        "at[i as usize] = seq_start(starts, i).number();",
        "error[unknown-method]: no method named number found for type SeqSb",
    ),
    (
        &CLOSED,
        "let mixed = starts[0] + closing;",
        "error[invalid-operand-type]: + cannot be applied to u16 and FrameSb",
    ),
    (
        &CLOSED,
        "let mixed = seq_start(starts, 0).plus(closing);",
        "error[mismatched-types]: expected SeqSb, found FrameSb",
    ),
    (
        &CLOSED,
        "let mixed = closing.plus(seq_start(starts, 0));",
        "error[mismatched-types]: expected FrameSb, found SeqSb",
    ),
    (
        &CLOSED,
        "let mixed = at[0] + closing;",
        "error[invalid-operand-type]: + cannot be applied to u16 and FrameSb",
    ),
    (
        &COUNTS,
        "let mixed = sbw.plus(seq_sbw);",
        "error[mismatched-types]: expected FrameSb, found SeqSb",
    ),
    (
        &COUNTS,
        "let mixed = seq_sbw.plus(sbw);",
        "error[mismatched-types]: expected SeqSb, found FrameSb",
    ),
    (
        &COUNTS,
        "let mixed = sbw.below(seq_sbw);",
        "error[mismatched-types]: expected FrameSb, found SeqSb",
    ),
];

/// Right lines at the same places.
const RIGHT: &[(&Place, &str)] = &[
    (&FILL, "let right = sbx.in_frame(pair).plus(end);"),
    (
        &SPLIT,
        "let right = ssb.plus(split.tile).in_frame(pair).below(end);",
    ),
    (&SIZES, "let right = total.plus(sbx);"),
    (
        &DOUBLED,
        "let right = seq_start(starts, i).plus(seq_start(starts, 0));",
    ),
    (
        &CLOSED,
        "let right = seq_start(starts, 0).in_frame(pair).plus(closing);",
    ),
    (&COUNTS, "let right = sbw.plus(seq_sbw.in_frame(pair));"),
];

fn root() -> PathBuf {
    fs::canonicalize(Path::new(env!("CARGO_MANIFEST_DIR")).join("../..")).unwrap()
}

/// The toolchain's folder, by its command rt.
fn kit() -> PathBuf {
    let path = env::var_os("PATH").unwrap_or_default();
    let rt = env::split_paths(&path)
        .map(|folder| folder.join("rt"))
        .find(|rt| rt.is_file())
        .unwrap();
    let rt = fs::canonicalize(rt).unwrap();
    rt.parent().unwrap().parent().unwrap().to_path_buf()
}

/// Each crate, and all that it stands on.
fn crates() -> Vec<(String, Vec<String>)> {
    let text = fs::read_to_string(root().join("crates.txt")).unwrap();
    text.lines()
        .filter(|line| !line.starts_with('#'))
        .filter_map(|line| line.split_once(':'))
        .map(|(name, uses)| {
            let name = name.split_whitespace().next().unwrap_or("").to_string();
            (name, uses.split_whitespace().map(str::to_string).collect())
        })
        .collect()
}

fn copy(from: &Path, to: &Path) -> io::Result<()> {
    if !from.is_dir() {
        return fs::copy(from, to).map(|_| ());
    }
    fs::create_dir_all(to)?;
    for entry in fs::read_dir(from)? {
        let entry = entry?;
        copy(&entry.path(), &to.join(entry.file_name()))?;
    }
    Ok(())
}

/// A copy of the project, in which lines are put.
struct Copy(PathBuf);

impl Copy {
    fn new() -> Copy {
        let root = root();
        let here = env::temp_dir().join(format!("mubanlig-lines-{}", std::process::id()));
        fs::create_dir_all(&here).unwrap();
        for (name, _) in crates() {
            for part in ["src", "specs", "proofs"] {
                let part = Path::new("crates").join(&name).join(part);
                if root.join(&part).exists() {
                    copy(&root.join(&part), &here.join(&part)).unwrap();
                }
            }
        }
        Copy(here)
    }

    /// Compiles a crate: whether it did, and what was said, without the marks around names.
    fn compile(&self, krate: &str) -> (bool, String) {
        let kit = kit();
        let source = |name: &str| self.0.join("crates").join(name).join("src/lib.rt");
        let all = crates();
        let uses = |name: &str| all.iter().find(|(n, _)| n == name).unwrap().1.clone();
        let mut command = Command::new(kit.join("bin/rattle"));
        command
            .args(["check", "--crate-name", krate, "--only", ""])
            .arg(source(krate))
            .arg(format!("--extern=std={}", kit.join("rlibs/std.rlib").display()))
            .arg(format!("-Ldependency={}", kit.join("rlibs").display()))
            .arg("--antt-project")
            .arg(kit.join("rattle/logic/antt-project.json"))
            .arg("--logic-built")
            .arg(kit.join("logic_built"));
        for name in uses(krate) {
            let mut used = uses(&name);
            used.push("std".to_string());
            let path = source(&name);
            command.arg(format!("--lib={name}:{}={}", used.join(","), path.display()));
        }
        let out = command.output().unwrap();
        let said = [out.stdout, out.stderr].concat();
        (
            out.status.success(),
            String::from_utf8_lossy(&said).replace('`', ""),
        )
    }

    /// Compiles a crate with lines put into it: whether it did, and what was said of each line.
    fn compile_with(&self, krate: &str, lines: &[(&Place, &str)]) -> (bool, Vec<String>) {
        let mut files: Vec<&str> = lines.iter().map(|(place, _)| place.file).collect();
        files.sort();
        files.dedup();
        let folder = self.0.join("crates").join(krate).join("src");
        let mut before = Vec::new();
        let mut places = vec![(String::new(), 0); lines.len()];
        for file in files {
            let text = fs::read_to_string(folder.join(file)).unwrap();
            let mut now: Vec<String> = Vec::new();
            for line in text.lines() {
                now.push(line.to_string());
                for (at, (place, put)) in lines.iter().enumerate() {
                    if place.file == file && place.behind == line.trim() {
                        now.push(put.to_string());
                        places[at] = (file.to_string(), now.len());
                    }
                }
            }
            fs::write(folder.join(file), now.join("\n") + "\n").unwrap();
            before.push((folder.join(file), text));
        }
        let (compiles, said) = self.compile(krate);
        for (file, text) in before {
            fs::write(file, text).unwrap();
        }
        let of_line = |(file, at): &(String, usize)| {
            assert!(
                *at > 0,
                "a line of {krate} behind which lines are put is not there"
            );
            let mark = format!("/{file}:{at}:");
            said.lines()
                .filter(|line| line.contains(&mark))
                .collect::<Vec<_>>()
                .join("\n")
        };
        (compiles, places.iter().map(of_line).collect())
    }
}

impl Drop for Copy {
    fn drop(&mut self) {
        let _ = fs::remove_dir_all(&self.0);
    }
}

#[test]
fn wrong_lines_are_turned_down() {
    if Command::new("rt").arg("version").output().is_err() {
        println!("skipped: the Rattle toolchain, rt, is not here");
        return;
    }
    let project = Copy::new();
    let mut wrong = Vec::new();
    for krate in ["tile_info", "frame_hdr"] {
        let (compiles, said) = project.compile(krate);
        assert!(compiles, "{krate} does not compile as it stands: {said}");
        // Right lines at the same places are taken, so that what turns the others down is the line.
        let right: Vec<_> = RIGHT
            .iter()
            .filter(|(place, _)| place.krate == krate)
            .copied()
            .collect();
        let (compiles, said) = project.compile_with(krate, &right);
        assert!(compiles, "a right line is turned down: {said:?}");
        let rows: Vec<_> = LINES
            .iter()
            .filter(|(place, ..)| place.krate == krate)
            .collect();
        // Some at a time: the compiler stops after a number of errors.
        for part in rows.chunks(8) {
            let lines: Vec<_> = part
                .iter()
                .map(|(place, line, _)| (*place, *line))
                .collect();
            let (_, said) = project.compile_with(krate, &lines);
            for ((_, line, words), said) in part.iter().zip(said) {
                println!(
                    "{line}\n    {}",
                    said.split_once(": ").map_or("compiles", |(_, said)| said)
                );
                if !said.contains(words) {
                    wrong.push(format!("{line}: expected {words}, found {said}"));
                }
            }
        }
    }
    assert!(wrong.is_empty(), "{}", wrong.join("\n"));
}
