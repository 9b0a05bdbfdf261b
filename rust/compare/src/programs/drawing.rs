//! The picture that draw prints, in SVG: of a layout's tiles, or of a refusal.

use std::fmt::Write;

/// The picture's size in samples, what a sample is across and down, and the unit: the longer side of the drawing has 1000.
struct View {
    w: i64,
    h: i64,
    x: i64,
    y: i64,
    unit: i64,
}

/// Where a column or a row, or a part of one, is drawn.
#[derive(Clone, Copy)]
struct Span {
    at: i64,
    size: i64,
}

/// No side is drawn shorter than an eighth of the other: by what a sample along a side is multiplied for that.
fn stretch(side: i64, other: i64) -> i64 {
    if 8 * other < side {
        8 * other
    } else if 8 * side < other {
        other
    } else {
        1
    }
}

impl View {
    fn of(w: i64, h: i64) -> Self {
        let (across, down) = (stretch(w, h), stretch(h, w));
        Self {
            w,
            h,
            x: 1000 * across,
            y: 1000 * down,
            unit: (w * across).max(h * down),
        }
    }

    fn column(&self, i: usize, tile: [i64; 4]) -> Span {
        Span::of(self.x, self.unit, self.w, i, tile[0], tile[2])
    }

    fn row(&self, j: usize, tile: [i64; 4]) -> Span {
        Span::of(self.y, self.unit, self.h, j, tile[1], tile[3])
    }
}

impl Span {
    /// A tile along a side. One without samples is drawn behind the side's end, with a place for each tile before it.
    fn of(scale: i64, unit: i64, most: i64, i: usize, begin: i64, reach: i64) -> Self {
        if reach == 0 {
            Self {
                at: scale * most + 30 * unit * i as i64,
                size: 30 * unit,
            }
        } else {
            Self {
                at: scale * begin,
                size: scale * reach,
            }
        }
    }

    /// The middle of it, at most so long.
    fn middle(self, most: i64) -> Self {
        let size = self.size.min(most);
        Self {
            at: self.at + (self.size - size) / 2,
            size,
        }
    }

    /// What follows it, so long.
    fn behind(self, size: i64) -> Self {
        Self {
            at: self.at + self.size,
            size,
        }
    }
}

/// The tiles of a layout in a frame, under a title.
pub fn picture(title: &str, t: &[i64], code: i64, w: i64, h: i64, tiles: &[[i64; 4]]) -> String {
    let v = View::of(w, h);
    let (cols, rows, side) = (t[4] as usize, t[8] as usize, 64 << code);
    let mut columns: Vec<Span> = (0..cols).map(|i| v.column(i, tiles[i])).collect();
    let mut lines: Vec<Span> = (0..rows).map(|j| v.row(j, tiles[j * cols])).collect();
    columns.push(columns[cols - 1].behind(68 * v.unit));
    lines.push(lines[rows - 1].behind(68 * v.unit));
    let mut text = String::new();
    head(&mut text, &v, columns[cols].at, lines[rows].at, title);
    note(&mut text, &v, cols, rows, side);
    grid(&mut text, &v, side);
    layout(&mut text, &v, cols, tiles);
    for (span, start) in columns.iter().zip(&t[9..]) {
        text += &above(v.unit, *span, *start);
    }
    for (span, start) in lines.iter().zip(&t[74..]) {
        text += &left(v.unit, *span, *start);
    }
    text + "</svg>\n"
}

/// The sheet, with room for what stands behind the picture's edge, and the title for those who see and for those who have it
/// read.
fn head(text: &mut String, v: &View, right: i64, bottom: i64, title: &str) {
    let unit = v.unit;
    let (left, top) = (80 * unit, 160 * unit);
    let width = right.max(1000 * unit) + 160 * unit;
    let height = bottom.max(v.y * v.h) + 240 * unit;
    write!(
        text,
        "<svg xmlns='http://www.w3.org/2000/svg' viewBox='-{left} -{top} {width} {height}' font-family='sans-serif'>\n\
         <title>{title}</title>\n\
         <rect x='-{left}' y='-{top}' width='100%' height='100%' fill='white'/>\n\
         <svg x='-{left}' y='-{top}' width='{}' height='{}' viewBox='0 0 1160 90'>\
         <text x='20' y='36' font-size='26'>{title}</text>\n",
        1160 * unit,
        90 * unit
    )
    .unwrap();
}

/// What the numbers in the drawing are.
fn note(text: &mut String, v: &View, cols: usize, rows: usize, side: i64) {
    let scale = if v.x == v.y { "" } else { "; not to scale" };
    writeln!(
        text,
        "<text x='20' y='70' font-size='20' fill='dimgray'>{cols} x {rows} tiles, each with its number, width x height in samples; \
         starts in superblocks of {side}{scale}</text></svg>"
    )
    .unwrap();
}

/// The superblocks, along a side of no more than 64 of them.
fn grid(text: &mut String, v: &View, side: i64) {
    let is_line = |n: i64, most: i64| n < most && most <= 64 * side;
    writeln!(
        text,
        "<g fill='none' stroke='lightgray' stroke-width='{}'>",
        v.unit
    )
    .unwrap();
    for n in (1..64).map(|i| i * side) {
        if is_line(n, v.w) {
            writeln!(text, "<path d='M{} 0h0v{}'/>", v.x * n, v.y * v.h).unwrap();
        }
        if is_line(n, v.h) {
            writeln!(text, "<path d='M0 {}h{}v0'/>", v.y * n, v.x * v.w).unwrap();
        }
    }
    text.push_str("</g>\n");
}

/// The tiles, and the picture's edge over them.
fn layout(text: &mut String, v: &View, cols: usize, tiles: &[[i64; 4]]) {
    writeln!(
        text,
        "<g fill='none' stroke='black' stroke-width='{}' text-anchor='middle'>",
        v.unit
    )
    .unwrap();
    for (k, &tile) in tiles.iter().enumerate() {
        let (a, d) = (v.column(k % cols, tile), v.row(k / cols, tile));
        write!(
            text,
            "<rect x='{}' y='{}' width='{}' height='{}'/>",
            a.at, d.at, a.size, d.size
        )
        .unwrap();
        let most = 160 * v.unit;
        text.push_str(&label(a.middle(most), d.middle(most), k, tile[2], tile[3]));
    }
    writeln!(
        text,
        "<rect width='{}' height='{}' stroke-width='{}'/>\n</g>",
        v.x * v.w,
        v.y * v.h,
        3 * v.unit
    )
    .unwrap();
}

/// A tile's number and its size: in one line, in a turned one, or in two.
fn label(a: Span, d: Span, k: usize, w: i64, h: i64) -> String {
    let inside = |view: &str, words: &str| {
        format!(
            "<svg x='{}' y='{}' width='{}' height='{}' viewBox='0 0 {view}' fill='black' stroke='none'>{words}</svg>\n",
            a.at, d.at, a.size, d.size
        )
    };
    if 4 * d.size <= a.size {
        let words = format!("<text x='48' y='9.5' font-size='10'>{k}: {w}x{h}</text>");
        inside("96 12", &words)
    } else if 3 * a.size <= d.size {
        let words = format!(
            "<text x='-48' y='9.5' font-size='10' transform='rotate(-90)'>{k}: {w}x{h}</text>"
        );
        inside("12 96", &words)
    } else {
        let words = format!(
            "<text x='50%' y='13' font-size='13'>{k}</text><text x='50%' y='25' font-size='10'>{w}x{h}</text>"
        );
        let width = match w.max(h) {
            ..100 => 38,
            100..1000 => 48,
            _ => 72,
        };
        inside(&format!("{width} 28"), &words)
    }
}

/// A column's start above it, turned where the column is narrow.
fn above(unit: i64, s: Span, start: i64) -> String {
    let (up, height, view, place) = if s.size < 68 * unit {
        let turned = "x='-30' y='10' font-size='12' transform='rotate(-90)'";
        (68, 60, "12 32", turned)
    } else {
        (42, 34, "40 20", "y='16' font-size='16'")
    };
    format!(
        "<svg x='{}' y='-{}' width='{}' height='{}' viewBox='0 0 {view}' preserveAspectRatio='xMinYMax'><text {place}>{start}</text></svg>\n",
        s.at,
        up * unit,
        s.size,
        height * unit
    )
}

/// A row's start to its left.
fn left(unit: i64, s: Span, start: i64) -> String {
    format!(
        "<svg x='-{}' y='{}' width='{}' height='{}' viewBox='0 0 40 20' preserveAspectRatio='xMaxYMin'>\
         <text x='40' y='15' font-size='16' text-anchor='end'>{start}</text></svg>\n",
        78 * unit,
        s.at,
        68 * unit,
        s.size
    )
}

/// What the number of a refusal means.
fn meaning(number: i64) -> &'static str {
    match number {
        1 => {
            ": a sequence header's profile, layout, bit depth, reference frames, or the reader's error"
        }
        2 => ": 64 columns, or then 64 rows, leave superblocks over",
        4 => ": an argument outside the domain, or a layout that has no rectangles",
        _ => "",
    }
}

/// A refusal under a title.
pub fn refusal(title: &str, number: i64) -> String {
    format!(
        "<svg xmlns='http://www.w3.org/2000/svg' viewBox='0 0 1160 90' font-family='sans-serif'>\n\
         <title>{title}</title>\n\
         <rect width='100%' height='100%' fill='white'/>\n\
         <text x='20' y='36' font-size='26'>{title}</text>\n\
         <text x='20' y='70' font-size='22'>no {number}{}</text>\n\
         </svg>\n",
        meaning(number)
    )
}
