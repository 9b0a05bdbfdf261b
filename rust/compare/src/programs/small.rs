//! The smallest input that still differs.

use super::Program;
use crate::case::Case;
use crate::shrink::shrink;
use crate::stored;

/// Longer inputs are only cut and cleared: each step is a run of the program.
const SHORT: usize = 400;

/// Makes an input of which a program prints something else smaller, as long as it does.
pub fn smallest(program: Program, input: &[u8], differs: impl Fn(&[u8]) -> bool) -> Vec<u8> {
    if program == Program::Vectors {
        return fewest(input, differs);
    }
    let mut input = input.to_vec();
    cut(&mut input, &differs);
    clear(&mut input, &differs, 0, usize::MAX);
    if input.len() > SHORT {
        return input;
    }
    let case = Case {
        data: input,
        ..Case::default()
    };
    shrink(case, |case| differs(&case.data)).data
}

/// Cuts bytes off the end.
fn cut(input: &mut Vec<u8>, differs: &impl Fn(&[u8]) -> bool) {
    let mut size = input.len().next_power_of_two();
    while size > 0 {
        while size <= input.len() && differs(&input[..input.len() - size]) {
            input.truncate(input.len() - size);
        }
        size /= 2;
    }
}

/// Makes bytes from one on up to another zero: all of them, or each half of them.
fn clear(input: &mut Vec<u8>, differs: &impl Fn(&[u8]) -> bool, from: usize, to: usize) {
    let to = to.min(input.len());
    if input[from..to].iter().all(|&byte| byte == 0) {
        return;
    }
    let mut cleared = input.clone();
    cleared[from..to].fill(0);
    if differs(&cleared) {
        *input = cleared;
    } else if to - from > 1 {
        let middle = from + (to - from) / 2;
        clear(input, differs, from, middle);
        clear(input, differs, middle, to);
    }
}

/// As few stored answers as still differ.
fn fewest(file: &[u8], differs: impl Fn(&[u8]) -> bool) -> Vec<u8> {
    let mut list = stored::list(file);
    for i in (0..list.len()).rev() {
        let taken = list.remove(i);
        if !differs(&stored::file(&list)) {
            list.insert(i, taken);
        }
    }
    stored::file(&list)
}

#[cfg(test)]
mod tests {
    use super::*;

    #[test]
    fn a_long_input_is_cut_and_cleared() {
        let input: Vec<u8> = (0..70_000u32).map(|i| i as u8 | 1).collect();
        let differs = |input: &[u8]| input.len() > 60_000 && input[3] != 0;
        let smallest = smallest(Program::Tile, &input, differs);
        assert_eq!(smallest.len(), 60_001);
        assert_eq!(smallest.iter().filter(|&&byte| byte != 0).count(), 1);
    }

    #[test]
    fn a_short_input_is_made_small() {
        let differs = |input: &[u8]| input.len() > 2 && input[2] >= 16;
        let smallest = smallest(Program::Tile, &[9; 7].map(|n| n + 50), differs);
        assert_eq!(smallest, [0, 0, 16]);
    }
}
