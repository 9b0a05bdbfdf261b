//! The header file's names for the numbers are those of the fields.

use super::*;
use std::fmt::Debug;
use std::fs;

/// Names and first numbers of an enum of the header file, whose names have a prefix; and behind the last the count.
fn named(list: &str, prefix: &str, count: usize) -> Vec<(String, usize)> {
    let path = concat!(env!("CARGO_MANIFEST_DIR"), "/../../include/mubanlig.h");
    let text = fs::read_to_string(path).unwrap();
    let (_, list) = text.split_once(&format!("enum {list} {{")).unwrap();
    let (list, _) = list.split_once('}').unwrap();
    let mut named: Vec<(String, usize)> = list
        .lines()
        .filter_map(|line| line.trim().strip_prefix(prefix))
        .map(|line| {
            let (name, rest) = line.split_once(" = ").unwrap();
            let number = rest.split(',').next().unwrap().trim();
            (name.to_lowercase(), number.parse().unwrap())
        })
        .collect();
    named.push((String::new(), count));
    named
}

/// The name of the one field that a number sets, with the records around it, as the header file writes it.
fn field_of<T: Copy + From<u8>, const N: usize, R: Debug>(
    record: impl Fn(&[T; N]) -> R,
    number: usize,
) -> String {
    let mut numbers = [T::from(0); N];
    let zero = format!("{:#?}", record(&numbers));
    numbers[number] = T::from(1);
    let set = format!("{:#?}", record(&numbers));
    let mut around: Vec<&str> = Vec::new();
    for (before, after) in zero.lines().zip(set.lines()) {
        // The records around a line are told by its indentation.
        around.truncate((before.len() - before.trim_start().len()) / 4);
        around.push(before.trim().split(':').next().unwrap());
        if before != after {
            // Without the entries of lists, the lists in lists and the records `d` and `t`.
            let is_name = |name: &&str| name.len() > 1 && !name.ends_with(',');
            let names: Vec<&str> = around[1..].iter().copied().filter(is_name).collect();
            return names.join("_");
        }
    }
    panic!("number {number} sets no field");
}

/// Each number has the name of the field that it sets.
fn names_each_number<T: Copy + From<u8>, const N: usize, R: Debug>(
    list: &str,
    prefix: &str,
    record: impl Fn(&[T; N]) -> R,
) {
    let named = named(list, prefix, N);
    assert_eq!(named[0].1, 0);
    for pair in named.windows(2) {
        let [(name, first), (_, next)] = pair else {
            unreachable!()
        };
        assert!(first < next);
        for number in *first..*next {
            assert_eq!(field_of(&record, number), *name, "number {number}");
        }
    }
}

#[test]
fn the_header_file_names_each_number_of_a_header() {
    names_each_number("mubanlig_hdr", "MUBANLIG_HDR_", |numbers| {
        sequence_header(numbers, TileInfo::default())
    });
}

#[test]
fn the_header_file_names_each_number_of_film_grain() {
    names_each_number("mubanlig_fgd", "MUBANLIG_FGD_", film_grain_data);
}

/// The entries of lists in lists, in their order, and numbers below 0.
#[test]
fn film_grain_lists_are_in_order() {
    let fgd = film_grain_data(&from_fn(|i| i16::try_from(i).unwrap()));
    assert_eq!(fgd.num_points, [1, 2, 3]);
    assert_eq!(fgd.points[0][0], [4, 5]);
    assert_eq!(fgd.points[0][13], [30, 31]);
    assert_eq!(fgd.points[2][13], [86, 87]);
    assert_eq!((fgd.ar_coeffs[0][0], fgd.ar_coeffs[1][0]), (90, 118));
    assert_eq!((fgd.uv_mult, fgd.uv_luma_mult), ([176, 177], [178, 179]));
    assert_eq!((fgd.uv_offset, fgd.block_size), ([180, 181], 185));
    let fgd = film_grain_data(&[-128; GRAIN_NUMBERS]);
    assert_eq!((fgd.ar_coeffs[2][27], fgd.uv_offset[1]), (-128, -128));
}
