//! The input of vectors, a list of stored answers: what it has to print of it, and lists in which answers are wrong.

use super::Answer;
use crate::choice;
use crate::kind::Kind;
use crate::replay;
use crate::rng::Rng;
use crate::stored::{self, Stored};
use std::fmt::Write;

/// How many answers of each operation the right list in small has.
const FEW: usize = 3;

/// For each operation how many answers there are, and how many are the Rust's, or the rules'. The number is 0 where all are.
pub fn answer(file: &[u8]) -> Answer {
    let counts = replay::counts(&stored::list(file));
    let mut text = String::new();
    for (kind, [replayed, differing]) in Kind::ALL.iter().zip(counts) {
        writeln!(text, "{} {replayed} {}", kind.name(), replayed - differing).unwrap();
    }
    let differing: u64 = counts.iter().map(|count| count[1]).sum();
    Answer {
        number: i64::from(differing > 0),
        text,
    }
}

/// The stored answers of each operation.
pub struct Lists {
    kinds: Vec<Vec<Stored>>,
}

impl Lists {
    pub fn new(seed: u64) -> Self {
        let mut kinds = vec![Vec::new(); Kind::STORED];
        for stored in choice::list(seed) {
            kinds[stored.case.kind as usize].push(stored);
        }
        Self { kinds }
    }

    /// Some answers of each operation, all right.
    fn few(&self) -> Vec<Stored> {
        let some = |kind: &Vec<Stored>| {
            let step = kind.len().div_ceil(FEW);
            kind.iter().step_by(step).cloned().collect::<Vec<_>>()
        };
        self.kinds.iter().flat_map(some).collect()
    }

    /// No answer; the right list; and lists with one wrong answer of each operation: in the value or the answer, in the position,
    /// in the error and in the record, at its first and its last number, and with a number less or one more.
    pub fn by_rule(&self) -> Vec<Vec<u8>> {
        let right = self.few();
        let mut files = vec![vec![], stored::file(&right)];
        for kind in 0..Kind::STORED {
            let first = right.iter().position(|s| s.case.kind as usize == kind);
            let at = first.expect("each operation has stored answers");
            let last = right[at].outcome.len() - 1;
            let mut places = vec![0, 1, 2, 3, last];
            places.retain(|&place| place <= last);
            places.dedup();
            for place in places {
                files.push(changed(&right, at, |row| {
                    row[place] = row[place].wrapping_add(1)
                }));
            }
            files.push(changed(&right, at, |row| row.truncate(last)));
            files.push(changed(&right, at, |row| row.push(0)));
        }
        files
    }

    /// Answers of any operations, of which some are wrong in a number.
    pub fn random(&self, rng: &mut Rng) -> Vec<u8> {
        let wrong = rng.pick(&[0, 0, 10, 50]);
        let list: Vec<Stored> = (0..rng.range(1, 30))
            .map(|_| {
                let kind = &self.kinds[rng.below(Kind::STORED as u64) as usize];
                let mut stored = kind[rng.below(kind.len() as u64) as usize].clone();
                if rng.percent(wrong) {
                    let at = rng.below(stored.outcome.len() as u64) as usize;
                    let number = &mut stored.outcome[at];
                    *number = number.wrapping_add(rng.pick(&[1, u32::MAX, 1 << 8, 1 << 16]));
                }
                stored
            })
            .collect();
        stored::file(&list)
    }
}

/// The list with another outcome at a place.
fn changed(list: &[Stored], at: usize, change: impl FnOnce(&mut Vec<u32>)) -> Vec<u8> {
    let mut list = list.to_vec();
    change(&mut list[at].outcome);
    stored::file(&list)
}

#[cfg(test)]
mod tests {
    use super::*;

    /// The operations of which an answer is wrong.
    fn wrong(file: &[u8]) -> Vec<String> {
        let text = answer(file).text;
        let lines = text.lines().map(|line| line.split(' ').collect::<Vec<_>>());
        lines
            .filter(|words| words[1] != words[2])
            .map(|words| words[0].to_string())
            .collect()
    }

    #[test]
    fn each_operation_has_lists_with_one_wrong_answer() {
        let files = Lists::new(1).by_rule();
        assert_eq!(answer(&files[1]).number, 0);
        for kind in &Kind::ALL[..Kind::STORED] {
            let lists = files[2..]
                .iter()
                .filter(|file| wrong(file) == [kind.name()]);
            assert!(lists.count() >= 4, "{}", kind.name());
        }
    }
}
