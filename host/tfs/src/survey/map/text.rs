//! The map as text for a terminal.

use super::{drawn_faults, Cell, Survey, PLAIN};

/// The columns before the blocks of a row, which hold the number of its first.
const LEFT: usize = 6;

/// So many blocks stand together.
const GROUP: usize = 8;

/// So many free rows in succession and more are one line.
const FOLDED: usize = 3;

/// The map, the files and the faults, for a terminal of so many columns.
pub fn text(survey: &Survey, width: usize, colour: bool) -> String {
    let cells = survey.cells();
    let ink = Ink(colour);
    let rows = rows(&cells, columns(width), ink);
    let (signs, files) = (signs(&cells, ink), files(survey, ink));
    let (counts, note) = (survey.counts(), survey.note());
    let faults = survey.faults_beside().into_iter();
    let faults: String = faults.map(|fault| format!("  {fault}\n")).collect();
    format!("{rows}\n{signs}{files}{counts}\n{note}\n{faults}")
}

/// The number of blocks in a row: 64, or fewer on a narrow terminal.
fn columns(width: usize) -> usize {
    let fits = |columns: &usize| LEFT + columns + columns / GROUP - 1 <= width;
    [64, 32, 16].into_iter().find(fits).unwrap_or(GROUP)
}

/// Rows with the number of their first block; runs of free rows are folded.
fn rows(cells: &[Cell], columns: usize, ink: Ink) -> String {
    let rows: Vec<&[Cell]> = cells.chunks(columns).collect();
    let runs = rows.chunk_by(|one, other| is_free(one) && is_free(other));
    let mut text = String::new();
    let mut first = 0;
    for run in runs {
        let end = first + run.iter().map(|row| row.len()).sum::<usize>();
        if run.len() >= FOLDED {
            text += &format!("{:LEFT$}blocks {first} to {} are free\n", "", end - 1);
        } else {
            let firsts = (first..).step_by(columns);
            let lines = firsts.zip(run).map(|(first, row)| line(first, row, ink));
            text += &lines.collect::<String>();
        }
        first = end;
    }
    text
}

fn is_free(row: &[Cell]) -> bool {
    row.iter().all(|cell| *cell == Cell::Free)
}

fn line(first: usize, row: &[Cell], ink: Ink) -> String {
    let group = |cells: &[Cell]| cells.iter().map(|cell| ink.sign(*cell)).collect();
    let groups: Vec<String> = row.chunks(GROUP).map(group).collect();
    format!("{first:>4}  {}\n", groups.join(" "))
}

/// What the signs stand for; faults with their numbers of blocks, where they are drawn.
fn signs(cells: &[Cell], ink: Ink) -> String {
    let plain = PLAIN.map(|cell| format!("{} {}", ink.sign(cell), cell.words()));
    let plain = plain.join("  ");
    let line = |(fault, told)| format!("{} {told}\n", ink.sign(fault));
    let faults: String = drawn_faults(cells).into_iter().map(line).collect();
    format!("{plain}  A inode  a content\n{faults}\n")
}

/// A line for each slot that is not free.
fn files(survey: &Survey, ink: Ink) -> String {
    let line = |slot: usize| {
        let signs = [Cell::Inode(slot), Cell::Content(slot)].map(|cell| ink.sign(cell));
        let blocks = survey.blocks_of(slot);
        let (size, name) = (survey.size_shown(slot), survey.name_shown(slot));
        let signs = signs.concat();
        format!("{signs}    {slot:>4}  {size:>10}  {blocks:>6}  {name}\n")
    };
    let lines: String = survey.taken().map(line).collect();
    match lines.is_empty() {
        true => lines,
        false => format!("file  slot        size  blocks  name\n{lines}\n"),
    }
}

/// Whether signs are coloured.
#[derive(Clone, Copy)]
struct Ink(bool);

impl Ink {
    fn sign(self, cell: Cell) -> String {
        let sign = cell.sign();
        match self.0 {
            true => format!("\x1b[{}m{sign}\x1b[0m", code(cell)),
            false => sign.to_string(),
        }
    }
}

/// The ANSI attributes of a cell: faults have a background, inodes are bold.
fn code(cell: Cell) -> String {
    let hue = |slot: usize| [32, 33, 34, 35, 36, 31][slot % 6];
    match cell {
        Cell::Twice => "97;41".to_string(),
        Cell::Stray => "30;43".to_string(),
        Cell::Missing => "97;45".to_string(),
        Cell::Fixed(_) => "1".to_string(),
        Cell::Inode(slot) => format!("1;{}", hue(slot)),
        Cell::Content(slot) => hue(slot).to_string(),
        Cell::Free => "2".to_string(),
    }
}
