//! What a static library has in it: is it whole, for x86-64, and of the interface that the crate was written for?

use std::fmt;

const MAGIC: &[u8] = b"!<arch>\n";
const HEAD: usize = 60;

/// Why a file can't be linked.
#[derive(Debug, PartialEq, Eq)]
pub enum Fault {
    /// It does not begin as a static library does.
    NotALibrary,
    /// It ends inside a member, or behind a list of functions that are not there.
    Truncated,
    /// An object in it is not one for x86-64 Linux.
    OtherMachine,
    /// It does not say the number of its interface.
    NoInterface { needed: u32 },
    /// It has an interface of another number.
    OtherInterface { found: String, needed: u32 },
}

impl fmt::Display for Fault {
    fn fmt(&self, f: &mut fmt::Formatter<'_>) -> fmt::Result {
        match self {
            Self::NotALibrary => f.write_str("is not a static library"),
            Self::Truncated => f.write_str("is cut off: a part of it is missing"),
            Self::OtherMachine => f.write_str("is not for x86-64 Linux"),
            Self::NoInterface { needed } => write!(
                f,
                "does not say the number of its interface, and this crate needs {needed}: it is another library, or an older one"
            ),
            Self::OtherInterface { found, needed } => {
                write!(f, "has interface {found}, and this crate needs {needed}")
            }
        }
    }
}

/// Is the library whole, and does it export the function that is named by `mark` and the number of the interface?
pub fn check(library: &[u8], mark: &str, needed: u32) -> Result<(), Fault> {
    let symbols = symbols(library)?;
    let mut numbers = symbols.iter().filter_map(|name| name.strip_prefix(mark));
    match numbers.next() {
        Some(found) if found == needed.to_string() => Ok(()),
        Some(found) => Err(Fault::OtherInterface {
            found: found.to_string(),
            needed,
        }),
        None => Err(Fault::NoInterface { needed }),
    }
}

/// The functions that the library's own list names, once all of its members are looked through.
fn symbols(library: &[u8]) -> Result<Vec<String>, Fault> {
    if !library.starts_with(MAGIC) {
        return Err(if MAGIC.starts_with(library) && !library.is_empty() {
            Fault::Truncated
        } else {
            Fault::NotALibrary
        });
    }
    let mut list = None;
    let mut starts = Vec::new();
    let mut next = MAGIC.len();
    while next < library.len() {
        let head = library.get(next..next + HEAD).ok_or(Fault::Truncated)?;
        if &head[58..] != b"`\n" {
            return Err(Fault::NotALibrary);
        }
        let size: usize = text(&head[48..58])?
            .parse()
            .map_err(|_| Fault::NotALibrary)?;
        let body = next + HEAD;
        let end = body.checked_add(size).ok_or(Fault::Truncated)?;
        let member = library.get(body..end).ok_or(Fault::Truncated)?;
        match text(&head[..16])? {
            "/" => list = Some(member),
            "//" => {}
            _ => {
                is_x86_64_object(member)?;
                starts.push(next);
            }
        }
        next = end + size % 2;
    }
    named(list.unwrap_or(&[0; 4]), &starts)
}

/// The names of the list: a count, as many offsets of members, as many names that end with a zero byte.
fn named(list: &[u8], starts: &[usize]) -> Result<Vec<String>, Fault> {
    let word = |i: usize| {
        let bytes = list.get(4 * i..4 * i + 4).ok_or(Fault::Truncated)?;
        Ok(bytes.iter().fold(0, |n, &byte| n << 8 | usize::from(byte)))
    };
    let count = word(0)?;
    for i in 0..count {
        if !starts.contains(&word(1 + i)?) {
            return Err(Fault::Truncated);
        }
    }
    let names = list[4 * (1 + count)..].split(|&byte| byte == 0);
    Ok(names
        .take(count)
        .map(|name| String::from_utf8_lossy(name).into_owned())
        .collect())
}

/// An ELF file of 64 bits, least byte first, for machine 62.
fn is_x86_64_object(member: &[u8]) -> Result<(), Fault> {
    match (member.get(..6), member.get(18..20)) {
        (Some(b"\x7fELF\x02\x01"), Some([62, 0])) => Ok(()),
        _ => Err(Fault::OtherMachine),
    }
}

fn text(bytes: &[u8]) -> Result<&str, Fault> {
    std::str::from_utf8(bytes)
        .map(str::trim_end)
        .map_err(|_| Fault::NotALibrary)
}
