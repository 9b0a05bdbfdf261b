//! The readings of document 01, and places where people trip.

use mubanlig::{
    AdaptiveBoolean, Error, FilmGrainData, FrameHeader, FrameType, GetBits, LAYOUT_BYTES,
    PixelLayout, Place, SequenceHeader, TileInfo, TileLimit, parse_film_grain_data, parse_seq_hdr,
    parse_tile_info, parse_tile_info_frmhdr, parse_tile_info_frmhdr_parts,
    parse_tile_info_frmhdr_within, parse_tile_info_within, tile_rectangles, write_tile_info,
};

/// A layout read over a fresh record at level 0, tier 0; and whether the reader's error is set.
fn layout(pair: [u8; 2], w: i32, h: i32, data: &[u8]) -> (Result<TileInfo, Error>, bool) {
    let sbmul = if pair == [1, 2] { 2 } else { 1 };
    let mut t = TileInfo::default();
    let mut gb = GetBits::new(data);
    let read = parse_tile_info(&mut t, &mut gb, sbmul, pair[0], pair[1], w, h, 0, 0);
    (read.map(|()| t), gb.has_error())
}

#[test]
fn listed_layout() {
    let (t, error) = layout([0, 0], 256, 128, &[0x28]);
    let t = t.unwrap();
    assert!(!t.uniform && !error);
    assert_eq!(t.col_starts(), [0, 2, 3, 4]);
    assert_eq!(t.row_starts(), [0, 2]);
}

#[test]
fn uniform_layouts() {
    let read = |pair, w, h, data: &[u8]| layout(pair, w, h, data).0.unwrap();
    assert_eq!(read([0, 0], 320, 64, &[0xE0]).col_starts(), [0, 2, 3, 4, 5]);
    let t = read([0, 0], 320, 64, &[0xF0]);
    assert_eq!(t.col_starts(), [0, 1, 2, 3, 4, 5]);
    assert_eq!(t.log2_cols, 3);
    assert_eq!(read([0, 0], 330, 64, &[0xE0]).col_starts(), [0, 2, 3, 4, 6]);
    assert_eq!(read([1, 2], 600, 128, &[0xC0]).col_starts(), [0, 2, 5]);
    assert_eq!(read([0, 0], 4032, 4672, &[0x80]).row_starts(), [0, 37, 73]);
}

#[test]
fn layouts_without_data() {
    let (t, error) = layout([0, 0], 4096, 64, &[]);
    assert_eq!(t.unwrap().cols, 64);
    assert!(error);
    assert_eq!(layout([0, 0], 4160, 64, &[]).0, Err(Error::InvalidTileInfo));
}

#[test]
fn wrong_arguments_use_no_bit() {
    let mut t = TileInfo::default();
    let mut gb = GetBits::new(&[0xFF]);
    let read = parse_tile_info(&mut t, &mut gb, 1, 0, 0, 0, 64, 0, 0);
    assert_eq!(read, Err(Error::WrongArguments));
    assert_eq!(gb.place(), Place::default());
}

#[test]
fn a_refused_layout_is_left_as_it_was() {
    let mut t = TileInfo::default();
    t.col_start_sb.fill(9);
    let given = t.clone();
    let read = parse_tile_info(&mut t, &mut GetBits::new(&[]), 1, 0, 0, 4160, 64, 0, 0);
    assert_eq!(read, Err(Error::InvalidTileInfo));
    assert_eq!(t, given);
}

/// Over a record with an old number everywhere: no old start is left, of uniform layouts and of others, and of the numbers
/// `min_log2_rows` only where it is not set.
#[test]
fn an_accepted_layout_has_no_old_start() {
    for (pair, w, h, data, cols, rows, least) in [
        ([0, 0], 256, 128, 0x28, &[0, 2, 3, 4][..], &[0, 2][..], 9),
        ([0, 0], 330, 64, 0xE0, &[0, 2, 3, 4, 6], &[0, 1], 0),
        ([1, 2], 600, 128, 0xC0, &[0, 2, 5], &[0, 1], 0),
        ([0, 0], 1, 1, 0x00, &[0, 1], &[0, 1], 9),
    ] {
        let sbmul = if pair == [1, 2] { 2 } else { 1 };
        let mut t = TileInfo {
            min_log2_rows: 9,
            col_start_sb: Box::new([77; 65]),
            row_start_sb: Box::new([65_535; 65]),
            ..Default::default()
        };
        let gb = &mut GetBits::new(std::slice::from_ref(&data));
        parse_tile_info(&mut t, gb, sbmul, pair[0], pair[1], w, h, 0, 0).unwrap();
        assert_eq!((t.col_starts(), t.row_starts()), (cols, rows));
        assert!(t.col_start_sb[cols.len()..].iter().all(|&start| start == 0));
        assert!(t.row_start_sb[rows.len()..].iter().all(|&start| start == 0));
        assert_eq!(t.min_log2_rows, least);
        let fresh = layout(pair, w, h, &[data]).0.unwrap();
        assert_eq!(
            t,
            TileInfo {
                min_log2_rows: least,
                ..fresh
            }
        );
    }
}

/// A layout of so many superblocks across and down without data, each a tile of its own, over a record with old numbers:
/// within a limit, and as it was and is without one.
fn limited(across: i32, down: i32, limit: TileLimit) -> [(Result<(), Error>, TileInfo, Place); 2] {
    let given = TileInfo {
        uniform: true,
        min_log2_rows: 200,
        rows: 9,
        col_start_sb: Box::new([77; 65]),
        ..Default::default()
    };
    let (w, h) = (64 * across, 64 * down);
    let read = |limit: Option<TileLimit>| {
        let mut t = given.clone();
        let mut gb = GetBits::new(&[]);
        let answer = match limit {
            Some(limit) => parse_tile_info_within(&mut t, &mut gb, 1, 0, 0, w, h, 0, 0, limit),
            None => parse_tile_info(&mut t, &mut gb, 1, 0, 0, w, h, 0, 0),
        };
        if answer.is_err() {
            assert_eq!(t, given);
        }
        (answer, t, gb.place())
    };
    [read(Some(limit)), read(None)]
}

/// The panel's edges, each by itself and both.
#[test]
fn layouts_within_the_panel() {
    for (across, down, many) in [
        (16, 8, false),
        (17, 8, true),
        (16, 9, true),
        (17, 9, true),
        (1, 1, false),
        (1, 64, true),
        (64, 1, true),
        (15, 7, false),
    ] {
        let [panel, wall] = limited(across, down, TileLimit::PANEL);
        assert_eq!(
            (i32::from(wall.1.cols), i32::from(wall.1.rows)),
            (across, down)
        );
        assert_eq!(panel.2, wall.2);
        if many {
            assert_eq!(panel.0, Err(Error::TooManyTiles));
        } else {
            assert_eq!(panel, wall);
        }
    }
}

#[test]
fn any_numbers_are_a_limit() {
    for (cols, rows, many) in [
        (3, 2, false),
        (2, 2, true),
        (3, 1, true),
        (0, 255, true),
        (255, 0, true),
        (0, 0, true),
        (255, 255, false),
        (64, 64, false),
    ] {
        let [within, wall] = limited(3, 2, TileLimit { cols, rows });
        assert_eq!(
            within.0,
            if many {
                Err(Error::TooManyTiles)
            } else {
                Ok(())
            }
        );
        assert_eq!(within.2, wall.2);
    }
    assert_eq!(Error::TooManyTiles.number(), 6);
}

/// 2 and 4 come before 6, also within no columns and no rows.
#[test]
fn other_refusals_come_before_too_many_tiles() {
    let none = TileLimit { cols: 0, rows: 0 };
    for (across, refusal) in [(65, Error::InvalidTileInfo), (0, Error::WrongArguments)] {
        let [within, wall] = limited(across, 1, none);
        assert_eq!(within, wall);
        assert_eq!(within.0, Err(refusal));
    }
}

/// A frame that reuses 17 columns and 9 rows, and one that reads 17 columns and a row: the limit is asked of both.
#[test]
fn frames_within_a_limit() {
    let mut seqhdr = SequenceHeader {
        max_width: 17 * 64,
        max_height: 9 * 64,
        ..Default::default()
    };
    seqhdr.tiling.present = AdaptiveBoolean::On;
    seqhdr.tiling.t = layout([0, 0], 17 * 64, 9 * 64, &[]).0.unwrap();
    assert_eq!((seqhdr.tiling.t.cols, seqhdr.tiling.t.rows), (17, 9));
    for (height, rows) in [(9 * 64, 9), (64, 1)] {
        let given = FrameHeader {
            frame_type: FrameType::Inter,
            width: 17 * 64,
            height,
            sb128: 9,
            ..Default::default()
        };
        let mut wall = given.clone();
        let mut gb = GetBits::new(&[0]);
        parse_tile_info_frmhdr(&mut wall, &seqhdr, &mut gb).unwrap();
        assert_eq!((wall.tiling.t.cols, wall.tiling.t.rows), (17, rows));
        let end = gb.place();
        let reused = rows == 9;
        assert_eq!(end == Place::default(), reused);
        for (limit, many) in [
            ((17, rows), false),
            ((16, rows), true),
            ((17, rows - 1), true),
        ] {
            let limit = TileLimit {
                cols: limit.0,
                rows: limit.1,
            };
            let mut hdr = given.clone();
            let mut gb = GetBits::new(&[0]);
            let answer = parse_tile_info_frmhdr_within(&mut hdr, &seqhdr, &mut gb, limit);
            assert_eq!(gb.place(), end);
            assert_eq!(answer.is_err(), many);
            assert_eq!(hdr, if many { given.clone() } else { wall.clone() });
        }
    }
}

#[test]
fn sequence_headers() {
    let read = |data: &[u8], strict| parse_seq_hdr(&mut GetBits::new(data), strict);
    let data = [0x82, 0x05, 0x00, 0x00, 0x00, 0x80, 0x10, 0x02];
    let hdr = read(&data, true).unwrap();
    assert_eq!((hdr.max_width, hdr.max_height), (1, 1));
    assert_eq!(hdr.layout, PixelLayout::I400);
    let mut ends_with_zero = data;
    ends_with_zero[7] = 0x00;
    assert_eq!(read(&ends_with_zero, true), Err(Error::InvalidTrailingBits));
    assert!(read(&ends_with_zero, false).is_ok());
    assert_eq!(read(&data[..7], true), Err(Error::InvalidSequenceHeader));
    assert_eq!(read(&[], false), Err(Error::InvalidSequenceHeader));
}

#[test]
fn profiles() {
    for (profile, accepted) in [(8, true), (31, true), (9, false), (30, false)] {
        let data = [
            0x82 | profile << 2,
            0x05,
            0x00,
            0x00,
            0x00,
            0x80,
            0x10,
            0x02,
        ];
        assert_eq!(
            parse_seq_hdr(&mut GetBits::new(&data), true).is_ok(),
            accepted
        );
    }
}

#[test]
fn a_frame_reuses_the_layout_whole() {
    let mut seqhdr = SequenceHeader {
        max_width: 256,
        max_height: 64,
        ..Default::default()
    };
    seqhdr.tiling.present = AdaptiveBoolean::On;
    seqhdr.tiling.t = layout([0, 0], 256, 64, &[0xC0]).0.unwrap();
    let mut hdr = FrameHeader {
        frame_type: FrameType::Inter,
        width: 192,
        height: 64,
        ..Default::default()
    };
    parse_tile_info_frmhdr(&mut hdr, &seqhdr, &mut GetBits::new(&[])).unwrap();
    assert_eq!(hdr.tiling.t.col_starts(), [0, 2, 4]);

    seqhdr.level = 32;
    let refused = parse_tile_info_frmhdr(&mut hdr, &seqhdr, &mut GetBits::new(&[]));
    assert_eq!(refused, Err(Error::WrongArguments));
}

/// A sequence's record with old numbers behind its closing starts, and a frame's that is full of them: reused with multiplier 1
/// and with 2, read, and refused, without a limit and on a panel.
#[test]
fn a_frame_has_no_old_start() {
    let full = |cols: &[u16], rows: &[u16], old: u16| {
        let mut t = TileInfo {
            uniform: true,
            cols: 2,
            rows: 1,
            col_start_sb: Box::new([old; 65]),
            row_start_sb: Box::new([old; 65]),
            ..Default::default()
        };
        t.col_start_sb[..cols.len()].copy_from_slice(cols);
        t.row_start_sb[..rows.len()].copy_from_slice(rows);
        t
    };
    let mut seqhdr = SequenceHeader {
        sb128: 2,
        max_width: 1024,
        max_height: 256,
        ..Default::default()
    };
    seqhdr.tiling.t = full(&[0, 2, 4], &[0, 1], 65_535);
    for (present, frame_type, level, cols) in [
        (AdaptiveBoolean::On, FrameType::Inter, 0, &[0, 2, 4][..]),
        (AdaptiveBoolean::On, FrameType::Key, 0, &[0, 4, 8]),
        (AdaptiveBoolean::Off, FrameType::Inter, 0, &[0, 1, 2, 3, 4]),
        (AdaptiveBoolean::On, FrameType::Key, 32, &[]),
    ] {
        seqhdr.tiling.present = present;
        seqhdr.level = level;
        let mut given = FrameHeader {
            frame_type,
            width: 1024,
            height: 256,
            sb128: 9,
            ..Default::default()
        };
        given.tiling.t = full(&[], &[], 77);
        let mut hdrs = [given.clone(), given.clone(), given.clone()];
        let gb = || GetBits::new(&[0]);
        let answers = [
            parse_tile_info_frmhdr(&mut hdrs[0], &seqhdr, &mut gb()),
            parse_tile_info_frmhdr_within(&mut hdrs[1], &seqhdr, &mut gb(), TileLimit::PANEL),
            parse_tile_info_frmhdr_within(
                &mut hdrs[2],
                &seqhdr,
                &mut gb(),
                TileLimit { cols: 1, rows: 1 },
            ),
        ];
        if level == 32 {
            assert_eq!(answers, [Err(Error::WrongArguments); 3]);
            assert_eq!(hdrs, [given.clone(), given.clone(), given]);
            continue;
        }
        assert_eq!(answers, [Ok(()), Ok(()), Err(Error::TooManyTiles)]);
        assert_eq!(hdrs[2], given);
        for hdr in &hdrs[..2] {
            let t = &hdr.tiling.t;
            assert_eq!(t.col_starts(), cols);
            assert!(t.col_start_sb[cols.len()..].iter().all(|&start| start == 0));
            let behind = &t.row_start_sb[t.row_starts().len()..];
            assert!(behind.iter().all(|&start| start == 0));
        }
    }
}

#[test]
fn short_codes() {
    let read = |data: &'static [u8]| GetBits::new(data);
    let mut gb = read(&[0x81]);
    assert_eq!((gb.get_uleb128(), gb.has_error()), (1, true));
    let mut gb = read(&[0xFF; 4]);
    assert_eq!((gb.get_uleb128(), gb.has_error()), (268_435_455, true));
    let mut gb = read(&[0x81, 0x80, 0x80, 0x80, 0x80, 0x80, 0x80, 0x80]);
    assert_eq!((gb.get_uleb128(), gb.has_error()), (1, false));
    let mut gb = read(&[]);
    assert_eq!((gb.get_vlc(), gb.has_error()), (u32::MAX, true));
    let mut gb = read(&[0x01]);
    assert_eq!((gb.get_vlc(), gb.has_error()), (127, true));
    let mut gb = read(&[]);
    assert_eq!((gb.get_ref_uniform(5, 9), gb.has_error()), (4, true));
}

#[test]
fn a_frame_by_its_parts_is_the_frame() {
    let seqhdr = SequenceHeader {
        max_width: 256,
        max_height: 128,
        ..Default::default()
    };
    let mut hdr = FrameHeader {
        width: 256,
        height: 128,
        sb128: 9,
        ..Default::default()
    };
    let (mut sb128, mut t) = (9, TileInfo::default());
    let mut gb = GetBits::new(&[0x28]);
    parse_tile_info_frmhdr_parts(
        FrameType::Key,
        256,
        128,
        &mut sb128,
        &mut t,
        &seqhdr,
        &mut gb,
    )
    .unwrap();
    parse_tile_info_frmhdr(&mut hdr, &seqhdr, &mut GetBits::new(&[0x28])).unwrap();
    assert_eq!((hdr.sb128, &hdr.tiling.t), (sb128, &t));
    assert_eq!(
        (sb128, t.col_starts(), gb.place().used),
        (0, &[0, 2, 3, 4][..], 5)
    );

    let given = t.clone();
    let refused =
        parse_tile_info_frmhdr_parts(FrameType::Key, 0, 128, &mut sb128, &mut t, &seqhdr, &mut gb);
    assert_eq!(refused, Err(Error::WrongArguments));
    assert_eq!((sb128, t, gb.place().used), (0, given, 5));
}

/// Each field of the header that can make it unusable for a frame.
#[test]
fn an_unusable_sequence_header_is_refused() {
    let mut usable = SequenceHeader {
        max_width: 256,
        max_height: 64,
        ..Default::default()
    };
    usable.tiling.present = AdaptiveBoolean::On;
    usable.tiling.t = layout([0, 0], 256, 64, &[0xC0]).0.unwrap();
    let read = |seqhdr: &SequenceHeader| {
        let mut hdr = FrameHeader {
            width: 192,
            height: 64,
            ..Default::default()
        };
        let mut gb = GetBits::new(&[0xFF]);
        let answer = parse_tile_info_frmhdr(&mut hdr, seqhdr, &mut gb);
        (answer, gb.place())
    };
    assert_eq!(read(&usable).0, Ok(()));
    let wrong: [fn(&mut SequenceHeader); 9] = [
        |seqhdr| seqhdr.sb128 = 3,
        |seqhdr| seqhdr.max_width = 0,
        |seqhdr| seqhdr.max_height = 65_537,
        |seqhdr| seqhdr.tier = 2,
        |seqhdr| seqhdr.tiling.t.cols = 65,
        |seqhdr| seqhdr.tiling.t.rows = 0,
        |seqhdr| seqhdr.tiling.t.log2_cols = 7,
        |seqhdr| seqhdr.tiling.t.log2_rows = 255,
        |seqhdr| seqhdr.tiling.t.col_start_sb[2] = 1025,
    ];
    for change in wrong {
        let mut seqhdr = usable.clone();
        change(&mut seqhdr);
        assert_eq!(
            read(&seqhdr),
            (Err(Error::WrongArguments), Place::default())
        );
    }
}

#[test]
fn a_reader_settles_at_the_end() {
    let end = Place {
        byte: 1,
        used: 0,
        error: false,
    };
    for (byte, used) in [
        (9, 3),
        (1, 0),
        (1, 1),
        (0, 8),
        (0, u32::MAX),
        (usize::MAX, 7),
    ] {
        let error = false;
        let mut gb = GetBits::at_place(&[0xAA], Place { byte, used, error });
        assert_eq!(gb.place(), end);
        assert_eq!((gb.byte_pos(), gb.remaining_bytes()), (1, 0));
        assert!(gb.remaining_slice().is_empty());
        assert_eq!(gb.get_bits(0), 0);
        assert_eq!(gb.place(), end);
    }
    let inside = Place {
        byte: 0,
        used: 7,
        error: true,
    };
    assert_eq!(GetBits::at_place(&[0xAA], inside).place(), inside);
}

#[test]
fn starts_of_any_record() {
    let mut t = TileInfo::default();
    assert_eq!(
        (t.col_starts(), t.row_starts(), t.tiles()),
        (&[0][..], &[0][..], 0)
    );
    t.cols = 64;
    t.rows = 255;
    assert_eq!(
        (t.col_starts().len(), t.row_starts().len(), t.tiles()),
        (65, 65, 64 * 255)
    );
}

const LAYOUTS: [PixelLayout; 4] = [
    PixelLayout::I400,
    PixelLayout::I420,
    PixelLayout::I422,
    PixelLayout::I444,
];
/// Those with chroma.
const CHROMA: [PixelLayout; 3] = [PixelLayout::I420, PixelLayout::I422, PixelLayout::I444];

/// Bytes of bits that are written field by field, the last byte filled up with zeros.
fn bits(fields: &str) -> Vec<u8> {
    let bits: Vec<u8> = fields.bytes().filter(|&c| c != b' ').collect();
    let byte = |bits: &[u8]| (0..8).fold(0, |n, i| n << 1 | u8::from(bits.get(i) == Some(&b'1')));
    bits.chunks(8).map(byte).collect()
}

/// Film grain parameters from the first bit on, the bits used, and the error.
fn grain(layout: PixelLayout, data: &[u8]) -> (Result<FilmGrainData, Error>, usize, bool) {
    let mut gb = GetBits::new(data);
    let read = parse_film_grain_data(&mut gb, layout);
    let Place { byte, used, error } = gb.place();
    (read, 8 * byte + used as usize, error)
}

/// Accepted parameters that use so many bits.
fn accepted_grain(layout: PixelLayout, data: &[u8], used: usize) -> FilmGrainData {
    let (read, bits, error) = grain(layout, data);
    assert_eq!((bits, error), (used, false));
    read.unwrap()
}

const NO_GRAIN: Result<FilmGrainData, Error> = Err(Error::InvalidFilmGrainData);

/// All planes and all fields.
#[test]
fn film_grain() {
    let data = bits(concat!(
        "0 0010 111 10 00010000 0100000 01000000 1100000", // luma: 16 to 32, 80 to 96
        "0001 110 11 1111111 11111111",                    // 127 to 255
        "0001 000 00 1 00001",                             // 1 to 1
        "11 01",                                           // the shift, the lag
        "00 01111 10001 10000 11111",
        "11 00000000 11111111 10000000 10000001 01111111",
        "01 000000 111111 100000 100001 011111",
        "01 10",
        "00000000 11111111 000000000",
        "10000001 01111111 111111111",
        "1 1 1 1",
    ));
    for layout in CHROMA {
        let fgd = accepted_grain(layout, &data, 237);
        let mut expected = FilmGrainData {
            num_points: [2, 1, 1],
            scaling_shift: 11,
            ar_coeff_lag: 1,
            ar_coeff_shift: 7,
            grain_scale_shift: 2,
            uv_mult: [-128, 1],
            uv_luma_mult: [127, -1],
            uv_offset: [-256, 255],
            overlap_flag: true,
            clip_to_restricted_range: true,
            mc_identity: true,
            block_size: 1,
            ..Default::default()
        };
        expected.points[0][..2].copy_from_slice(&[[16, 32], [80, 96]]);
        expected.points[1][0] = [127, 255];
        expected.points[2][0] = [1, 1];
        expected.ar_coeffs[0][..4].copy_from_slice(&[-1, 1, 0, 15]);
        expected.ar_coeffs[1][..5].copy_from_slice(&[-128, 127, 0, 1, -1]);
        expected.ar_coeffs[2][..5].copy_from_slice(&[-32, 31, 0, 1, -1]);
        assert_eq!(fgd, expected);
    }
}

/// One plane, and no bit that says whether chroma is scaled from luma.
#[test]
fn film_grain_without_chroma() {
    let mut expected = FilmGrainData {
        scaling_shift: 8,
        ar_coeff_shift: 6,
        ..Default::default()
    };
    assert_eq!(accepted_grain(PixelLayout::I400, &[0; 2], 15), expected);
    for layout in CHROMA {
        assert_eq!(accepted_grain(layout, &[0; 3], 24), expected);
    }
    expected.mc_identity = true;
    expected.clip_to_restricted_range = true;
    let data = bits("0000 00 00 00 00 0 1 1 0");
    assert_eq!(accepted_grain(PixelLayout::I400, &data, 16), expected);
}

#[test]
fn equal_positions_are_accepted() {
    let data = bits("0010 000 00 1 00001 0 00010 00 00 00 00 00 0 0 0");
    assert_eq!(data, [0x20, 0x42, 0x10, 0x00, 0x00]);
    let fgd = accepted_grain(PixelLayout::I400, &data, 34);
    assert_eq!(fgd.points[0][..3], [[1, 1], [1, 2], [0, 0]]);
    // Also the last position that there is.
    let data = bits("0010 111 00 11111111 00001 00000000 00010 00 00 00 00 00 0 0 0");
    let fgd = accepted_grain(PixelLayout::I400, &data, 48);
    assert_eq!(fgd.points[0][..2], [[255, 1], [255, 2]]);
}

/// The width of both chroma planes' coefficients is read, though there are none.
#[test]
fn chroma_from_luma_without_luma_points() {
    for layout in CHROMA {
        let fgd = accepted_grain(layout, &[0x80, 0x00, 0x00], 20);
        assert!(fgd.chroma_scaling_from_luma);
        assert_eq!((fgd.num_points, fgd.ar_coeff_shift), ([0; 3], 6));
        // Behind 1 0000 00 00 both widths, then the shift.
        let fgd = accepted_grain(layout, &bits("1 0000 00 00 11 11 01 10 0 0 0"), 20);
        assert_eq!((fgd.ar_coeff_shift, fgd.grain_scale_shift), (7, 2));
        assert_eq!((fgd.uv_mult, fgd.uv_luma_mult), ([0; 2], [0; 2]));
        assert_eq!((fgd.uv_offset, fgd.ar_coeffs), ([0; 2], [[0; 28]; 3]));
        // With a lag they have coefficients, and luma none.
        let lag_1 = "1 0000 00 01 00 00000 00001 00010 00011 00 11111 11110 11101 11100";
        let fgd = accepted_grain(layout, &bits(&(lag_1.to_string() + "11 00 0 0 0")), 60);
        assert_eq!(fgd.ar_coeffs[0], [0; 28]);
        assert_eq!(fgd.ar_coeffs[1][..5], [-16, -15, -14, -13, 0]);
        assert_eq!(fgd.ar_coeffs[2][..5], [15, 14, 13, 12, 0]);
        assert_eq!(fgd.ar_coeff_shift, 9);
    }
}

/// For luma's noise. Luma itself has none with lag 0.
#[test]
fn with_luma_points_chroma_has_one_coefficient_more() {
    for layout in CHROMA {
        let fgd = accepted_grain(layout, &[0x88, 0x00, 0x00, 0x00, 0x00, 0x00], 43);
        assert_eq!(fgd.num_points, [1, 0, 0]);
        let first = fgd.ar_coeffs.map(|plane| [plane[0], plane[1]]);
        assert_eq!(first, [[0, 0], [-16, 0], [-16, 0]]);
        assert_eq!((fgd.uv_mult, fgd.uv_offset), ([0; 2], [0; 2]));
    }
}

/// All is read, and refused at the end.
#[test]
fn an_error_before_is_refused_behind_film_grain() {
    for layout in LAYOUTS {
        let (read, used, _) = grain(layout, &[0; 3]);
        assert!(read.is_ok());
        let start = Place {
            error: true,
            ..Place::default()
        };
        let mut gb = GetBits::at_place(&[0; 3], start);
        assert_eq!(parse_film_grain_data(&mut gb, layout), NO_GRAIN);
        let Place { byte, used: u, .. } = gb.place();
        assert_eq!(8 * byte + u as usize, used);
        assert!(gb.has_error());
    }
}

#[test]
fn refused_film_grain() {
    assert_eq!(Error::InvalidFilmGrainData.number(), 7);
    // 15 points, right behind the four bits.
    assert_eq!(grain(PixelLayout::I400, &[0xF0]), (NO_GRAIN, 4, false));
    assert_eq!(grain(PixelLayout::I444, &[0x78]), (NO_GRAIN, 5, false));
    // A position past 255, right behind its bits.
    let data = bits("0010 111 00 11111111 00000 00000001");
    assert_eq!(data, [0x2E, 0x7F, 0x80, 0x04]);
    assert_eq!(grain(PixelLayout::I400, &data), (NO_GRAIN, 30, false));
    // One chroma list that is empty and another that is not, in I420 alone.
    for data in [[0x00, 0x80, 0x00], [0x00, 0x08, 0x00]] {
        assert_eq!(grain(PixelLayout::I420, &data), (NO_GRAIN, 24, false));
        for layout in [PixelLayout::I422, PixelLayout::I444] {
            assert_eq!(grain(layout, &data), (NO_GRAIN, 24, true));
            let data = [&data[..], &[0; 5]].concat();
            let fgd = accepted_grain(layout, &data, 62);
            assert_eq!(fgd.num_points[1] + fgd.num_points[2], 1);
            assert_eq!(fgd.uv_offset[0] + fgd.uv_offset[1], -256);
        }
    }
    // Data that runs out.
    for layout in LAYOUTS {
        assert_eq!(grain(layout, &[]), (NO_GRAIN, 0, true));
        assert_eq!(grain(layout, &[0x00]), (NO_GRAIN, 8, true));
    }
    assert_eq!(grain(PixelLayout::I420, &[0x00; 2]), (NO_GRAIN, 16, true));
}

/// A layout written at level 0, tier 0, into bytes that are A5 before; and these bytes.
fn written(
    t: &TileInfo,
    pair: [u8; 2],
    w: i32,
    h: i32,
    len: usize,
) -> (Result<usize, Error>, Vec<u8>) {
    let sbmul = if pair == [1, 2] { 2 } else { 1 };
    let mut out = vec![0xA5; len];
    let bits = write_tile_info(t, sbmul, pair[0], pair[1], w, h, 0, 0, &mut out);
    (bits, out)
}

/// What a row of bits reads as, all of which are used.
fn told(pair: [u8; 2], w: i32, h: i32, row: &str) -> TileInfo {
    let data = bits(row);
    let sbmul = if pair == [1, 2] { 2 } else { 1 };
    let mut t = TileInfo::default();
    let mut gb = GetBits::new(&data);
    parse_tile_info(&mut t, &mut gb, sbmul, pair[0], pair[1], w, h, 0, 0).unwrap();
    let Place { byte, used, error } = gb.place();
    assert_eq!(8 * byte + used as usize, row.replace(' ', "").len());
    assert!(!error);
    t
}

/// The layout of 600 by 128 samples, the codes 1 and 2, that a row of bits reads as.
fn narrow(row: &str) -> TileInfo {
    told([1, 2], 600, 128, row)
}

/// Uniform ones at the least logarithm, at the greatest and between; sizes told by short codes and by long ones, and such
/// that take no bit.
#[test]
fn a_layout_is_written_as_it_was_read() {
    for (pair, w, h, row) in [
        ([0, 0], 1, 1, "1"),
        ([0, 0], 1, 1, "0"),
        ([1, 2], 600, 128, "1 0"),
        ([1, 2], 600, 128, "1 10"),
        ([1, 2], 600, 128, "1 110"),
        ([1, 2], 600, 128, "1 111"),
        ([1, 2], 600, 128, "0 01 10"),
        ([0, 0], 256, 128, "1 0 0"),
        ([0, 0], 256, 128, "1 11 1"),
        ([0, 0], 256, 128, "0 01 0 1"),
        ([0, 0], 256, 128, "0 00 0 0 0"),
        ([0, 0], 256, 128, "0 11 1"),
        ([2, 2], 1700, 2000, "0 111 111"),
        ([2, 2], 1700, 2000, "0 00 100 10 111"),
        ([0, 0], 4032, 4672, "1 0 0"),
        ([0, 0], 16_000, 16_000, "1 10 110"),
    ] {
        let t = told(pair, w, h, row);
        let count = row.replace(' ', "").len();
        let bytes = bits(row);
        for more in 0..3 {
            let mut expected = bytes.clone();
            expected.resize(bytes.len() + more, 0xA5);
            let out = written(&t, pair, w, h, expected.len());
            assert_eq!(out, (Ok(count), expected), "{row}");
        }
        // No bits read as a record with a number behind a closing start: the first there, one between, or the last.
        for at in [usize::from(t.cols) + 1, 40, 64] {
            let mut old = t.clone();
            old.col_start_sb[at] = 1;
            let refused = (Err(Error::NoSuchLayout), vec![0xA5; bytes.len()]);
            assert_eq!(written(&old, pair, w, h, bytes.len()), refused);
        }
        for at in [usize::from(t.rows) + 1, 40, 64] {
            let mut old = t.clone();
            old.row_start_sb[at] = 65_535;
            assert_eq!(written(&old, pair, w, h, 0).0, Err(Error::NoSuchLayout));
        }
    }
}

/// A layout with these starts that is not uniform, for a frame in which each tile may have any size.
fn listed(cols: &[u16], rows: &[u16]) -> TileInfo {
    let log2 = |n: usize| u8::try_from(n.next_power_of_two().ilog2()).unwrap();
    let superblocks = |starts: &[u16]| usize::from(starts[starts.len() - 1]).min(64);
    let mut t = TileInfo {
        max_log2_cols: log2(superblocks(cols)),
        log2_cols: log2(cols.len() - 1),
        cols: u8::try_from(cols.len() - 1).unwrap(),
        max_log2_rows: log2(superblocks(rows)),
        log2_rows: log2(rows.len() - 1),
        rows: u8::try_from(rows.len() - 1).unwrap(),
        ..Default::default()
    };
    t.col_start_sb[..cols.len()].copy_from_slice(cols);
    t.row_start_sb[..rows.len()].copy_from_slice(rows);
    t
}

#[test]
fn a_written_layout_reads_back() {
    let single: Vec<u16> = (0..=64).collect();
    for (cols, rows) in [
        (&[0, 7][..], &[0, 9][..]),
        (&[0, 3, 4, 6, 7], &[0, 4, 8, 9]),
        (&[0, 1, 2, 3, 4, 5, 6, 7], &[0, 8, 9]),
        (&single[..], &[0, 1, 36]),
        (&[0, 1, 2], &single[..]),
    ] {
        let t = listed(cols, rows);
        let [w, h] = [cols, rows].map(|starts| 64 * i32::from(starts[starts.len() - 1]) - 5);
        let (count, out) = written(&t, [0, 0], w, h, LAYOUT_BYTES);
        let mut gb = GetBits::new(&out);
        let mut read = TileInfo::default();
        parse_tile_info(&mut read, &mut gb, 1, 0, 0, w, h, 0, 0).unwrap();
        assert_eq!(read, t);
        let Place { byte, used, error } = gb.place();
        assert_eq!((count, error), (Ok(8 * byte + used as usize), false));
        // Zeros up to the byte's end, and what was there behind it.
        let used = count.unwrap();
        let padding = (used..used.next_multiple_of(8)).all(|i| out[i / 8] >> (7 - i % 8) & 1 == 0);
        assert!(padding && out[used.div_ceil(8)..].iter().all(|&byte| byte == 0xA5));
    }
}

/// The same tiles by one logarithm, by another, and by their sizes.
#[test]
fn logarithms_and_flag_decide_what_is_written() {
    let mut t = narrow("1110");
    for row in ["1111", "00110"] {
        let other = narrow(row);
        assert_eq!(other.col_starts(), t.col_starts());
        assert_eq!(other.row_starts(), t.row_starts());
    }
    t.log2_cols = 3;
    assert_eq!(written(&t, [1, 2], 600, 128, 1), (Ok(4), vec![0xF0]));
    t.log2_cols = 2;
    t.uniform = false;
    assert_eq!(written(&t, [1, 2], 600, 128, 1), (Ok(5), vec![0x30]));
}

/// Each of the nine numbers, a start, the closing ones, and those behind them.
#[test]
fn no_bits_read_as_a_changed_layout() {
    let changes: [fn(&mut TileInfo); 20] = [
        |t| t.uniform ^= true,
        |t| t.min_log2_cols += 1,
        |t| t.max_log2_cols += 1,
        |t| t.max_log2_cols -= 1,
        |t| t.log2_cols = 0,
        |t| t.cols -= 1,
        |t| t.cols += 1,
        |t| t.min_log2_rows += 1,
        |t| t.max_log2_rows += 1,
        |t| t.log2_rows += 1,
        |t| t.rows += 1,
        |t| t.rows = 0,
        |t| t.col_start_sb[0] = 1,
        |t| t.row_start_sb[0] = 1,
        |t| t.col_start_sb[3] += 1,
        |t| t.row_start_sb[1] += 1,
        |t| t.col_start_sb[4] = 5,
        |t| t.col_start_sb[64] = 1,
        |t| t.row_start_sb[2] = 1,
        |t| t.row_start_sb[64] = 65_535,
    ];
    for row in ["1111", "00110"] {
        for change in &changes[usize::from(row == "00110")..] {
            let mut t = narrow(row);
            change(&mut t);
            // Asked before the buffer.
            for len in [0, 1, 3] {
                let refused = (Err(Error::NoSuchLayout), vec![0xA5; len]);
                assert_eq!(written(&t, [1, 2], 600, 128, len), refused, "{row} {t:?}");
            }
        }
    }
    // A start of a uniform layout; a count that there is not.
    let mut t = narrow("1111");
    t.col_start_sb[1] = 1;
    assert_eq!(written(&t, [1, 2], 600, 128, 1).0, Err(Error::NoSuchLayout));
    for count in [65, 128, 255] {
        for t in [
            TileInfo {
                cols: count,
                ..narrow("00110")
            },
            TileInfo {
                rows: count,
                ..narrow("00110")
            },
        ] {
            assert_eq!(written(&t, [1, 2], 600, 128, 1).0, Err(Error::NoSuchLayout));
        }
    }
    let zero = TileInfo::default();
    assert_eq!(written(&zero, [0, 0], 1, 1, 1).0, Err(Error::NoSuchLayout));
    assert_eq!(Error::NoSuchLayout.number(), 8);
}

/// Of a layout, and of a record that is none, in a buffer and in none.
#[test]
fn refused_writing_leaves_the_buffer() {
    let good = narrow("1110");
    let none = TileInfo {
        max_log2_rows: 5,
        ..good.clone()
    };
    for len in [0, 1, 3] {
        for t in [&good, &none] {
            for (pair, w, h) in [
                ([1, 2], 0, 128),
                ([1, 2], 600, 65_537),
                ([1, 2], -1, 128),
                ([2, 1], 600, 128),
                ([3, 3], 600, 128),
            ] {
                let refused = (Err(Error::WrongArguments), vec![0xA5; len]);
                assert_eq!(written(t, pair, w, h, len), refused);
            }
        }
    }
    for (level, tier) in [(32, 0), (255, 0), (0, 2)] {
        let refused = write_tile_info(&none, 2, 1, 2, 600, 128, level, tier, &mut []);
        assert_eq!(refused, Err(Error::WrongArguments));
    }
    assert_eq!(
        written(&good, [1, 2], 600, 128, 0).0,
        Err(Error::ShortBuffer)
    );
    let long = listed(&(0..=64).collect::<Vec<_>>(), &[0, 1]);
    let (count, _) = written(&long, [0, 0], 4096, 64, LAYOUT_BYTES);
    let needed = count.unwrap().div_ceil(8);
    let refused = (Err(Error::ShortBuffer), vec![0xA5; needed - 1]);
    assert_eq!(written(&long, [0, 0], 4096, 64, needed - 1), refused);
    assert_eq!(written(&long, [0, 0], 4096, 64, needed).0, count);
}

/// A viewer may import everything: `Result` is still std's.
#[test]
fn an_import_of_all_shadows_nothing() {
    #[allow(unused_imports)]
    use mubanlig::*;
    let answer: Result<u8, String> = Ok(1);
    assert_eq!(answer, Ok(1));
}

#[test]
fn rectangles_come_row_by_row() {
    let t = layout([0, 0], 256, 128, &[0x20]).0.unwrap();
    assert_eq!((t.cols, t.rows, t.tiles()), (3, 2, 6));
    let mut out = [7; 25];
    tile_rectangles(&t, 0, 256, 128, &mut out).unwrap();
    let mut expected = Vec::new();
    for down in t.row_starts().windows(2) {
        for across in t.col_starts().windows(2) {
            let [left, right] = [across[0], across[1]].map(|start| 64 * u32::from(start));
            let [top, bottom] = [down[0], down[1]].map(|start| 64 * u32::from(start));
            expected.extend([left, top, right - left, bottom - top]);
        }
    }
    assert_eq!(out[..24], expected);
    assert_eq!(out[24], 7);
    let area: u32 = out[..24].chunks(4).map(|tile| tile[2] * tile[3]).sum();
    assert_eq!(area, 256 * 128);
}

#[test]
fn rectangles_stop_at_the_edge() {
    let t = layout([0, 0], 330, 64, &[0xE0]).0.unwrap();
    assert_eq!(t.col_starts(), [0, 2, 3, 4, 6]);
    let mut out = [0; 16];
    tile_rectangles(&t, 0, 330, 64, &mut out).unwrap();
    assert_eq!(out[12..], [256, 0, 74, 64]);
    tile_rectangles(&t, 0, 65_536, 1, &mut out).unwrap();
    assert_eq!(out[12..], [256, 0, 128, 1]);
    let given = out;
    for (w, h) in [(0, 64), (330, 0), (-1, 64), (65_537, 64), (330, 65_537)] {
        assert_eq!(
            tile_rectangles(&t, 0, w, h, &mut out[..15]),
            Err(Error::WrongArguments)
        );
    }
    assert_eq!(out, given);
}

/// A sequence 256 wide with two columns, whose layout a frame 128 wide reuses.
#[test]
fn a_reused_tile_may_be_empty() {
    let mut seqhdr = SequenceHeader {
        max_width: 256,
        max_height: 64,
        ..Default::default()
    };
    seqhdr.tiling.present = AdaptiveBoolean::On;
    seqhdr.tiling.t = layout([0, 0], 256, 64, &[0xC0]).0.unwrap();
    let mut hdr = FrameHeader {
        frame_type: FrameType::Inter,
        width: 128,
        height: 64,
        ..Default::default()
    };
    parse_tile_info_frmhdr(&mut hdr, &seqhdr, &mut GetBits::new(&[])).unwrap();
    let mut t = hdr.tiling.t;
    assert_eq!(t.col_starts(), [0, 2, 4]);
    let mut out = [0; 8];
    tile_rectangles(&t, hdr.sb128, hdr.width, hdr.height, &mut out).unwrap();
    assert_eq!(out, [0, 0, 128, 64, 128, 0, 0, 64]);
    // In a frame that it ends before, it is not stretched.
    tile_rectangles(&t, 0, 300, 64, &mut out).unwrap();
    assert_eq!(out, [0, 0, 128, 64, 128, 0, 128, 64]);
    // Starts that fall behind the edge fall all the same.
    (t.col_start_sb[1], t.col_start_sb[2]) = (4, 3);
    let refused = tile_rectangles(&t, 0, 128, 64, &mut out);
    assert_eq!(refused, Err(Error::WrongArguments));
}
