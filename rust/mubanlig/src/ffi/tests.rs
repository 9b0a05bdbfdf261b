//! Calls that the safe crate can't make: buffers that are too short, and numbers that are no enum's.

use super::*;

const DATA: [u8; 2] = [0xFF, 0xFF];
/// Past the end and with an error, so that anything stored would show.
const PLACE: (usize, u8) = (41, 7);

/// What a call lends: buffers that are longer than told.
#[derive(Debug, Clone, PartialEq)]
struct Lent {
    place: (usize, u8),
    sb128: u8,
    delta_q: [i16; 16],
    masks: [u16; 3],
    hdr: [i64; HEADER_NUMBERS],
    info: [u8; INFO_BYTES],
    cols: [u16; 65],
    rows: [u16; 65],
    fgd: [i16; GRAIN_NUMBERS + 2],
}

const LENT: Lent = Lent {
    place: PLACE,
    sb128: 8,
    delta_q: [3; 16],
    masks: [4; 3],
    hdr: [5; HEADER_NUMBERS],
    info: [6; INFO_BYTES],
    cols: [1023; 65],
    rows: [1024; 65],
    fgd: [-2; GRAIN_NUMBERS + 2],
};

/// The lengths told of the nine bytes and both lists of starts.
type Lengths = [usize; 3];
const LONG: Lengths = [INFO_BYTES, 65, 65];
const SHORT: [Lengths; 4] = [[8, 65, 65], [9, 64, 65], [9, 65, 64], [0, 0, 0]];

fn seg_info(delta_qs: usize, mask_count: usize) -> (u32, Lent) {
    let mut lent = LENT;
    // SAFETY: the buffers are at least as long as told.
    let answer = unsafe {
        mubanlig_parse_seg_info(
            DATA.as_ptr(),
            DATA.len(),
            &raw mut lent.place.0,
            &raw mut lent.place.1,
            lent.delta_q.as_mut_ptr(),
            delta_qs,
            lent.masks.as_mut_ptr(),
            mask_count,
            0,
        )
    };
    (answer, lent)
}

/// Most columns and rows.
type Limit = Option<[u8; 2]>;
/// Without a limit, and within those that a call may tell.
const LIMITS: [Limit; 4] = [None, Some([0, 0]), Some([16, 8]), Some([255, 255])];

fn layout(lengths: Lengths, w: i32, limit: Limit) -> (u32, Lent) {
    let mut lent = LENT;
    macro_rules! call {
        ($symbol:ident $(, $limit:expr)*) => {
            // SAFETY: the buffers are at least as long as told.
            unsafe {
                $symbol(
                    DATA.as_ptr(),
                    DATA.len(),
                    &raw mut lent.place.0,
                    &raw mut lent.place.1,
                    lent.info.as_mut_ptr(),
                    lengths[0],
                    lent.cols.as_mut_ptr(),
                    lengths[1],
                    lent.rows.as_mut_ptr(),
                    lengths[2],
                    1,
                    0,
                    0,
                    w,
                    64,
                    0,
                    0,
                    $($limit,)*
                )
            }
        };
    }
    let answer = match limit {
        None => call!(mubanlig_parse_tile_info),
        Some([cols, rows]) => call!(mubanlig_parse_tile_info_within, cols, rows),
    };
    (answer, lent)
}

fn header(numbers: usize, lengths: Lengths) -> (u32, Lent) {
    let mut lent = LENT;
    // SAFETY: the buffers are at least as long as told.
    let answer = unsafe {
        mubanlig_parse_seq_hdr(
            DATA.as_ptr(),
            DATA.len(),
            &raw mut lent.place.0,
            &raw mut lent.place.1,
            0,
            lent.hdr.as_mut_ptr(),
            numbers,
            lent.info.as_mut_ptr(),
            lengths[0],
            lent.cols.as_mut_ptr(),
            lengths[1],
            lent.rows.as_mut_ptr(),
            lengths[2],
        )
    };
    (answer, lent)
}

/// The nine bytes of a sequence's layout: a flag that is not 1, and 6 columns and rows.
const SEQ_INFO: [u8; INFO_BYTES] = [6, 0, 0, 0, 6, 0, 0, 0, 6];
/// Its starts, of the columns and of the rows.
const SEQ_STARTS: [u16; 7] = [0, 1, 2, 3, 4, 5, 6];

/// A frame of 64 by 64 samples in a sequence with that layout, which has old numbers behind its closing starts.
fn frame(
    frame_type: u8,
    present: u8,
    lengths: Lengths,
    seq_lengths: Lengths,
    limit: Limit,
) -> (u32, Lent) {
    let mut lent = LENT;
    let mut starts = [65_535; 65];
    starts[..7].copy_from_slice(&SEQ_STARTS);
    macro_rules! call {
        ($symbol:ident $(, $limit:expr)*) => {
            // SAFETY: the buffers are at least as long as told.
            unsafe {
                $symbol(
                    DATA.as_ptr(),
                    DATA.len(),
                    &raw mut lent.place.0,
                    &raw mut lent.place.1,
                    frame_type,
                    64,
                    64,
                    &raw mut lent.sb128,
                    lent.info.as_mut_ptr(),
                    lengths[0],
                    lent.cols.as_mut_ptr(),
                    lengths[1],
                    lent.rows.as_mut_ptr(),
                    lengths[2],
                    0,
                    64,
                    64,
                    0,
                    0,
                    present,
                    SEQ_INFO.as_ptr(),
                    seq_lengths[0],
                    starts.as_ptr(),
                    seq_lengths[1],
                    starts.as_ptr(),
                    seq_lengths[2],
                    $($limit,)*
                )
            }
        };
    }
    let answer = match limit {
        None => call!(mubanlig_parse_tile_info_frmhdr),
        Some([cols, rows]) => call!(mubanlig_parse_tile_info_frmhdr_within, cols, rows),
    };
    (answer, lent)
}

/// Film grain parameters from a place in some data.
fn film_grain(data: &[u8], place: (usize, u8), layout: u8, numbers: usize) -> (u32, Lent) {
    let mut lent = Lent { place, ..LENT };
    // SAFETY: the buffers are at least as long as told.
    let answer = unsafe {
        mubanlig_parse_film_grain_data(
            data.as_ptr(),
            data.len(),
            &raw mut lent.place.0,
            &raw mut lent.place.1,
            layout,
            lent.fgd.as_mut_ptr(),
            numbers,
        )
    };
    (answer, lent)
}

/// A layout that is lent for writing. Behind its starts stand zeros.
#[derive(Clone, Copy)]
struct Given {
    info: [u8; INFO_BYTES],
    cols: &'static [u16],
    rows: &'static [u16],
}

/// What 256 by 128 samples and the bits 00101 give.
const LISTED: Given = Given {
    info: [0, 0, 2, 2, 3, 0, 1, 0, 1],
    cols: &[0, 2, 3, 4],
    rows: &[0, 2],
};

fn starts_of(first: &[u16]) -> [u16; 65] {
    let mut starts = [0; 65];
    starts[..first.len()].copy_from_slice(first);
    starts
}

/// A layout written for a frame of so many samples by 128, from buffers of these lengths into one of so many bytes: the
/// answer, the count of bits, which is 77 before, and all bytes.
fn written(t: Given, lengths: Lengths, w: i32, out_len: usize) -> (u32, u32, [u8; 4]) {
    let (cols, rows) = (starts_of(t.cols), starts_of(t.rows));
    let (mut out, mut bits) = ([0xAA; 4], 77);
    // SAFETY: the buffers are at least as long as told.
    let answer = unsafe {
        mubanlig_write_tile_info(
            t.info.as_ptr(),
            lengths[0],
            cols.as_ptr(),
            lengths[1],
            rows.as_ptr(),
            lengths[2],
            1,
            0,
            0,
            w,
            128,
            0,
            0,
            out.as_mut_ptr(),
            out_len,
            &raw mut bits,
        )
    };
    (answer, bits, out)
}

#[test]
fn the_libraries_are_those_of_this_interface() {
    // SAFETY: nothing is lent.
    let numbers = unsafe {
        [
            mubanlig_bits_interface_3(),
            mubanlig_interface_3(),
            mubanlig_write_interface_3(),
            mubanlig_tiles_interface_3(),
            mubanlig_frame_interface_3(),
            mubanlig_within_interface_3(),
            mubanlig_grain_interface_3(),
        ]
    };
    assert_eq!(numbers, [3; 7]);
}

#[test]
fn a_short_buffer_is_5_and_changes_nothing() {
    let refused = (5, LENT);
    for (delta_qs, mask_count) in [(15, 3), (16, 2), (0, 0)] {
        assert_eq!(seg_info(delta_qs, mask_count), refused);
    }
    assert_eq!(header(HEADER_NUMBERS - 1, LONG), refused);
    // Asked before the layout.
    for layout in [0, 3, 4, 255] {
        for numbers in [0, 1, GRAIN_NUMBERS - 1] {
            assert_eq!(film_grain(&DATA, PLACE, layout, numbers), refused);
        }
    }
    for lengths in SHORT {
        assert_eq!(header(HEADER_NUMBERS, lengths), refused);
        for limit in LIMITS {
            assert_eq!(layout(lengths, 64, limit), refused);
            assert_eq!(frame(0, 0, lengths, LONG, limit), refused);
            assert_eq!(frame(0, 0, LONG, lengths, limit), refused);
        }
    }
}

/// What was lent, with the place settled at the end: the error's byte stays what it was.
fn at_the_end() -> Lent {
    Lent {
        place: (8 * DATA.len(), PLACE.1),
        ..LENT
    }
}

#[test]
fn wrong_arguments_are_4_and_change_no_buffer() {
    let refused = (4, at_the_end());
    for limit in LIMITS {
        assert_eq!(layout(LONG, 0, limit), refused);
        assert_eq!(frame(4, 0, LONG, LONG, limit), refused);
        assert_eq!(frame(0, 3, LONG, LONG, limit), refused);
    }
    for layout in [4, 5, 128, 255] {
        assert_eq!(film_grain(&DATA, PLACE, layout, GRAIN_NUMBERS), refused);
    }
}

#[test]
fn a_refused_layout_is_2_and_changes_no_buffer() {
    for limit in LIMITS {
        assert_eq!(layout(LONG, 4160, limit), (2, at_the_end()));
    }
}

#[test]
fn a_refused_header_has_the_zero_record() {
    let zero = Lent {
        hdr: [0; HEADER_NUMBERS],
        info: [0; INFO_BYTES],
        cols: [0; 65],
        rows: [0; 65],
        ..at_the_end()
    };
    assert_eq!(header(HEADER_NUMBERS, LONG), (1, zero));
}

#[test]
fn an_accepted_layout_writes_a_flag_of_0_or_1() {
    for limit in [None, Some([1, 1]), Some([16, 8])] {
        let (answer, lent) = layout(LONG, 64, limit);
        // Not uniform, one column and one row; the least logarithm of the rows stays.
        assert_eq!((answer, lent.info), (0, [0, 0, 0, 0, 1, 6, 0, 0, 1]));
    }
    for limit in [None, Some([6, 6]), Some([16, 8])] {
        let (answer, lent) = frame(1, 1, LONG, LONG, limit);
        assert_eq!((answer, lent.info), (0, [1, 0, 0, 0, 6, 0, 0, 0, 6]));
    }
}

/// Both lists of starts are full before; the sequence's are so behind the closing start.
#[test]
fn an_accepted_layout_has_zeros_behind_its_starts() {
    for limit in [None, Some([1, 1]), Some([16, 8])] {
        let (answer, lent) = layout(LONG, 64, limit);
        let starts = starts_of(&[0, 1]);
        assert_eq!((answer, lent.cols, lent.rows), (0, starts, starts));
    }
    for limit in [None, Some([6, 6]), Some([16, 8])] {
        for (frame_type, present, first) in [(1, 1, &SEQ_STARTS[..]), (0, 0, &[0, 1])] {
            let (answer, lent) = frame(frame_type, present, LONG, LONG, limit);
            let starts = starts_of(first);
            assert_eq!((answer, lent.cols, lent.rows), (0, starts, starts));
        }
    }
}

/// A layout of 17 columns that is read, one of 6 columns and rows that is reused: both leave the reader where it is without
/// a limit.
#[test]
fn too_many_tiles_are_6_and_change_no_buffer() {
    let refused = (6, at_the_end());
    for limit in [[16, 8], [0, 255], [255, 0]] {
        assert_eq!(layout(LONG, 17 * 64, Some(limit)), refused);
    }
    for limit in [[5, 6], [6, 5], [0, 0]] {
        assert_eq!(frame(1, 1, LONG, LONG, Some(limit)), refused);
    }
}

/// Short parts of the layout are asked before the arguments, these before the record, and the bytes last.
#[test]
fn a_refused_layout_writes_no_byte_and_no_bits() {
    let mut no_layout = LISTED;
    no_layout.info[5] = 1;
    // A number behind a closing start.
    let old = Given {
        cols: &[0, 2, 3, 4, 4],
        ..LISTED
    };
    for lengths in SHORT {
        for (t, w) in [(LISTED, 256), (LISTED, 0), (no_layout, 256), (old, 256)] {
            assert_eq!(written(t, lengths, w, 4), (5, 0, [0xAA; 4]));
        }
    }
    for out_len in [0, 1, 4] {
        for t in [LISTED, no_layout, old] {
            assert_eq!(written(t, LONG, 0, out_len), (4, 0, [0xAA; 4]));
        }
        for t in [no_layout, old] {
            assert_eq!(written(t, LONG, 256, out_len), (8, 0, [0xAA; 4]));
        }
    }
    assert_eq!(written(LISTED, LONG, 256, 0), (5, 0, [0xAA; 4]));
}

#[test]
fn a_written_layout_keeps_the_bytes_behind() {
    for out_len in [1, 2, 4] {
        assert_eq!(
            written(LISTED, LONG, 256, out_len),
            (0, 5, [0x28, 0xAA, 0xAA, 0xAA])
        );
    }
}

/// One column and one row, by logarithms that can grow to 2 and to 1: the bits 100.
#[test]
fn a_layout_is_written_by_any_flag() {
    for flag in [1, 2, 128, 255] {
        let uniform = Given {
            info: [flag, 0, 2, 0, 1, 0, 1, 0, 1],
            cols: &[0, 4],
            rows: &[0, 2],
        };
        assert_eq!(
            written(uniform, LONG, 256, 4),
            (0, 3, [0x80, 0xAA, 0xAA, 0xAA])
        );
    }
}

#[test]
fn a_short_layout_has_no_rectangles() {
    let (info, starts) = ([1; INFO_BYTES], [1; 65]);
    for lengths in SHORT {
        let mut out = [9; 8];
        // SAFETY: the buffers are at least as long as told.
        let answer = unsafe {
            mubanlig_tile_rectangles(
                info.as_ptr(),
                lengths[0],
                starts.as_ptr(),
                lengths[1],
                starts.as_ptr(),
                lengths[2],
                0,
                64,
                64,
                out.as_mut_ptr(),
                out.len(),
            )
        };
        assert_eq!((answer, out), (5, [9; 8]));
    }
}

/// What was lent to a film grain reading, with other numbers in the place of the first ones.
fn left(place: (usize, u8), numbers: &[i16]) -> Lent {
    let mut lent = Lent { place, ..LENT };
    lent.fgd[..numbers.len()].copy_from_slice(numbers);
    lent
}

#[test]
fn refused_film_grain_is_7_and_has_the_zero_record() {
    let zero = [0; GRAIN_NUMBERS];
    for numbers in [GRAIN_NUMBERS, GRAIN_NUMBERS + 1, GRAIN_NUMBERS + 2] {
        // The error before; 15 points; no data.
        assert_eq!(
            film_grain(&[0, 0], (0, 7), 0, numbers),
            (7, left((15, 7), &zero))
        );
        assert_eq!(
            film_grain(&[0x0F], (4, 0), 0, numbers),
            (7, left((8, 0), &zero))
        );
        assert_eq!(
            film_grain(&[], (41, 0), 1, numbers),
            (7, left((0, 1), &zero))
        );
    }
}

#[test]
fn accepted_film_grain_writes_186_numbers() {
    let mut fgd = [0; GRAIN_NUMBERS];
    (fgd[88], fgd[174]) = (8, 6);
    for numbers in [GRAIN_NUMBERS, GRAIN_NUMBERS + 2] {
        assert_eq!(
            film_grain(&[0, 0], (0, 0), 0, numbers),
            (0, left((15, 0), &fgd))
        );
    }
}
