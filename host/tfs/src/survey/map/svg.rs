//! The map as a picture for a report: SVG 1.1 that stands alone.

use super::{drawn_faults, Cell, Survey, FAULTS, PLAIN};
use crate::survey::{Claim, FIXED};

const WIDTH: usize = 768;
const MARGIN: usize = 40;
const TOP: usize = 96;
const LINE: usize = 24;
const SQUARE: usize = 18;

/// Colours of files that colour-blind people tell apart, for inodes and, lighter, for content;
/// they recur, the letters do not.
const HUES: [(&str, &str); 6] = [
    ("#0072b2", "#bcdcf0"),
    ("#d55e00", "#f7d3b8"),
    ("#009e73", "#b5e6d8"),
    ("#8a5a83", "#ecd3e2"),
    ("#8c6d00", "#f3e3a6"),
    ("#5b5b5b", "#dddddd"),
];

/// The hatchings of faults, each with lines of its own direction.
const HATCHINGS: [(&str, &str); 3] = [
    ("twice", "M0 0L6 6M6 0L0 6"),
    ("stray", "M-1 1L1 -1M0 6L6 0M5 7L7 5"),
    ("missing", "M0 3L6 3"),
];

/// The map, the files and the faults under a title.
pub fn svg(survey: &Survey, title: &str) -> String {
    let cells = survey.cells();
    let columns = if cells.len() > 1024 { 64 } else { 32 };
    let side = WIDTH / columns;
    let below = TOP + side * cells.len().div_ceil(columns) + 2 * LINE;
    let (legend, below) = legend(survey, &cells, below);
    let (faults, height) = faults(survey, below);
    let width = WIDTH + 2 * MARGIN;
    let title = escaped(title);
    let counts = escaped(&survey.counts());
    let note = survey.note();
    let (patterns, grid) = (patterns(), grid(survey, &cells, columns));
    format!(
        "<?xml version=\"1.0\" encoding=\"UTF-8\"?>\n\
         <svg xmlns=\"http://www.w3.org/2000/svg\" version=\"1.1\" width=\"{width}\" \
         height=\"{height}\" viewBox=\"0 0 {width} {height}\" font-family=\"sans-serif\" \
         font-size=\"13\" fill=\"#222222\">\n<title>{title}</title>\n{patterns}\
         <rect width=\"{width}\" height=\"{height}\" fill=\"#ffffff\"/>\n\
         <text x=\"{MARGIN}\" y=\"40\" font-size=\"20\" font-weight=\"bold\">{title}</text>\n\
         <text x=\"{MARGIN}\" y=\"62\">{counts}</text>\n\
         <text x=\"{MARGIN}\" y=\"80\" fill=\"#666666\">{note}</text>\n\
         {grid}{legend}{faults}</svg>\n"
    )
}

fn patterns() -> String {
    let pattern = |(name, lines): (&str, &str)| {
        format!(
            "<pattern id=\"{name}\" width=\"6\" height=\"6\" patternUnits=\"userSpaceOnUse\">\
             <rect width=\"6\" height=\"6\" fill=\"#ffffff\"/>\
             <path d=\"{lines}\" stroke=\"#c00000\" stroke-width=\"1\"/></pattern>\n"
        )
    };
    format!("<defs>\n{}</defs>\n", HATCHINGS.map(pattern).concat())
}

/// A square for each block, and the number of each row's first block.
fn grid(survey: &Survey, cells: &[Cell], columns: usize) -> String {
    let side = WIDTH / columns;
    let mut text = String::new();
    for (block, cell) in cells.iter().enumerate() {
        let x = MARGIN + side * (block % columns);
        let y = TOP + side * (block / columns);
        if block % columns == 0 {
            text += &number_of_row(block, y + side / 2);
        }
        let about = escaped(&survey.about(block));
        let square = square(*cell, x, y, side);
        text += &format!("<g class=\"block\"><title>{about}</title>{square}</g>\n");
    }
    text
}

fn number_of_row(block: usize, middle: usize) -> String {
    let (x, y) = (MARGIN - 6, middle + 3);
    format!(
        "<text x=\"{x}\" y=\"{y}\" font-size=\"9\" text-anchor=\"end\" fill=\"#666666\">\
         {block}</text>\n"
    )
}

/// A square with its sign.
fn square(cell: Cell, x: usize, y: usize, side: usize) -> String {
    if FAULTS.contains(&cell) {
        return fault(cell, x, y, side);
    }
    let (fill, ink) = paint(cell);
    let sign = match cell {
        Cell::Free => String::new(),
        _ => sign(cell, ink, x + side / 2, y + side / 2, side),
    };
    format!(
        "<rect x=\"{x}\" y=\"{y}\" width=\"{side}\" height=\"{side}\" fill=\"{fill}\" \
         stroke=\"#cccccc\" stroke-width=\"0.5\"/>{sign}"
    )
}

/// A square with a thick edge, inside of the usual one, and white under its sign.
fn fault(cell: Cell, x: usize, y: usize, side: usize) -> String {
    let (fill, ink) = paint(cell);
    let (left, top, inner) = (x + 1, y + 1, side - 2);
    let (across, down, radius) = (x + side / 2, y + side / 2, side / 3);
    let sign = sign(cell, ink, across, down, side);
    format!(
        "<rect x=\"{left}\" y=\"{top}\" width=\"{inner}\" height=\"{inner}\" fill=\"{fill}\" \
         stroke=\"{ink}\" stroke-width=\"1.5\"/>\
         <circle cx=\"{across}\" cy=\"{down}\" r=\"{radius}\" fill=\"#ffffff\"/>{sign}"
    )
}

/// The sign of a cell around a point; content is not bold.
fn sign(cell: Cell, ink: &str, across: usize, down: usize, side: usize) -> String {
    let (base, size, sign) = (down + side / 5, side * 6 / 10, cell.sign());
    let weight = match cell {
        Cell::Content(_) => "normal",
        _ => "bold",
    };
    format!(
        "<text x=\"{across}\" y=\"{base}\" font-size=\"{size}\" font-weight=\"{weight}\" \
         text-anchor=\"middle\" fill=\"{ink}\">{sign}</text>"
    )
}

/// The colour of a square and of its sign.
fn paint(cell: Cell) -> (&'static str, &'static str) {
    match cell {
        Cell::Twice => ("url(#twice)", "#c00000"),
        Cell::Stray => ("url(#stray)", "#c00000"),
        Cell::Missing => ("url(#missing)", "#c00000"),
        Cell::Fixed(_) => ("#222222", "#ffffff"),
        Cell::Inode(slot) => (HUES[slot % HUES.len()].0, "#ffffff"),
        Cell::Content(slot) => (HUES[slot % HUES.len()].1, "#444444"),
        Cell::Free => ("#ffffff", "#222222"),
    }
}

/// What the squares stand for, from a height on, and the height below it.
fn legend(survey: &Survey, cells: &[Cell], top: usize) -> (String, usize) {
    let (signs, top) = signs(cells, top);
    let taken: Vec<usize> = survey.taken().collect();
    if taken.is_empty() {
        return (signs, top);
    }
    let head =
        words(MARGIN, top, "inode, content") + &columns(top, ["slot", "size", "blocks", "name"]);
    let tops = (top + LINE..).step_by(LINE);
    let rows = tops.zip(&taken).map(|(y, slot)| file(survey, *slot, y));
    let rows: String = rows.collect();
    (
        format!("{signs}{head}{rows}"),
        top + LINE * (taken.len() + 2),
    )
}

/// The faults that no square shows, from a height on, and the height below them.
fn faults(survey: &Survey, top: usize) -> (String, usize) {
    let faults = survey.faults_beside();
    let tops = (top..).step_by(LINE);
    let lines = tops.zip(&faults).map(|(y, fault)| words(MARGIN, y, fault));
    (lines.collect(), top + LINE * faults.len())
}

/// The squares that are of no file, and the height below them.
fn signs(cells: &[Cell], top: usize) -> (String, usize) {
    let entry = |x: usize, y: usize, cell: Cell, told: &str| {
        let square = square(cell, x, y - SQUARE * 3 / 4, SQUARE);
        square + &words(x + SQUARE + 8, y, told)
    };
    let places = (MARGIN..).step_by(130).zip(PLAIN);
    let plain = places.map(|(x, cell)| entry(x, top, cell, cell.words()));
    let drawn = drawn_faults(cells);
    let tops = (top + LINE..).step_by(LINE).zip(&drawn);
    let faults = tops.map(|(y, (fault, told))| entry(MARGIN, y, *fault, told));
    let text = plain.chain(faults).collect();
    (text, top + LINE * (drawn.len() + 2))
}

/// The line of a slot that is not free.
fn file(survey: &Survey, slot: usize, y: usize) -> String {
    let up = y - SQUARE * 3 / 4;
    let inode = square(Cell::Inode(slot), MARGIN, up, SQUARE);
    let content = square(Cell::Content(slot), MARGIN + SQUARE, up, SQUARE);
    let blocks = survey.blocks_of(slot).to_string();
    let (size, name) = (survey.size_shown(slot), survey.name_shown(slot));
    let texts = columns(y, [&slot.to_string(), &size, &blocks, &name]);
    format!("{inode}{content}{texts}")
}

/// Three words that end at their columns, and one that begins there.
fn columns(y: usize, texts: [&str; 4]) -> String {
    let [slot, size, blocks, name] = texts;
    let numbers = [(185, slot), (260, size), (330, blocks)];
    let numbers = numbers.map(|(x, text)| {
        format!(
            "<text x=\"{x}\" y=\"{y}\" text-anchor=\"end\">{}</text>",
            escaped(text)
        )
    });
    numbers.concat() + &words(360, y, name)
}

fn words(x: usize, y: usize, text: &str) -> String {
    format!("<text x=\"{x}\" y=\"{y}\">{}</text>\n", escaped(text))
}

impl Survey {
    /// A block with what it holds or what is wrong with it.
    fn about(&self, number: usize) -> String {
        let block = &self.blocks[number];
        let claim = |claim: &Claim| format!("{} of {}", claim.part.words(), self.named(claim.slot));
        let claims = block.claims.iter().map(claim);
        let fixed = FIXED.get(number).map(|fixed| fixed.to_string());
        let holds: Vec<String> = fixed.into_iter().chain(claims).collect();
        let holds = match holds.is_empty() {
            true => "of no file".to_string(),
            false => holds.join(", "),
        };
        let marked = if block.marked { "used" } else { "free" };
        format!("block {number}: {holds}; marked {marked}")
    }
}

/// Text between tags; characters that XML cannot hold are replaced.
fn escaped(text: &str) -> String {
    let mut safe = String::new();
    for character in text.chars() {
        match character {
            '&' => safe += "&amp;",
            '<' => safe += "&lt;",
            '>' => safe += "&gt;",
            '"' => safe += "&quot;",
            '\u{fffe}' | '\u{ffff}' => safe.push('\u{fffd}'),
            control if control.is_control() => safe.push('\u{fffd}'),
            _ => safe.push(character),
        }
    }
    safe
}
