//! A judge of Minesweeper boards: can a board be solved from its first cell without a guess? And the deductions by which it is decided.
//!
//! The code behind these functions is written in Rattle and proved to meet its contracts; this crate lends it memory and hands back what it wrote. Cells stand
//! row by row: the cell in row `r` and column `c` is `r * columns + c`. A board's cell is 0 to 8, or 255 for a mine; a position's is 0 to 8 where it is open,
//! 10 closed, 11 a known mine, 12 known safe.
//!
//! ```
//! // a mine, a 1 and a 0: the 0 opens the 1, and all safe cells are open
//! let verdict = lihvompa::verdict(1, 3, (0, 2), &[255, 1, 0]).unwrap();
//! assert!(verdict.yes);
//! assert_eq!(verdict.picture, [10, 1, 0]);
//! assert_eq!(verdict.opened_in, [lihvompa::NO_ROUND, 0, 0]);
//! ```

use std::fmt;

/// Why a call answers nothing. Where several apply, the first of this list is given.
#[derive(Clone, Copy, Debug, PartialEq, Eq, Hash)]
#[repr(u8)]
pub enum Refusal {
    /// Rows or columns are 0 or above 32; of [`pattern`] also below 3.
    Size = 1,
    /// The cells are not rows × columns.
    Length = 2,
    /// A cell value is not one of a board, or of a position.
    Cell = 3,
    /// The start is off the board.
    Start = 4,
    /// A safe cell's number is not its count of neighbouring mines.
    Number = 5,
    /// A deduction meets a contradiction.
    Contradiction = 6,
    /// The block asked for is not below the block count.
    Block = 8,
    /// The table has more bytes than it has room for.
    Table = 9,
    /// The start is a mine.
    StartMine = 13,
}

impl fmt::Display for Refusal {
    fn fmt(&self, f: &mut fmt::Formatter<'_>) -> fmt::Result {
        f.write_str(match self {
            Refusal::Size => "size",
            Refusal::Length => "length",
            Refusal::Cell => "cell",
            Refusal::Start => "start",
            Refusal::Number => "number",
            Refusal::Contradiction => "contradiction",
            Refusal::Block => "block",
            Refusal::Table => "table",
            Refusal::StartMine => "start on a mine",
        })
    }
}

impl std::error::Error for Refusal {}

/// Stands in [`Verdict::opened_in`] for a cell that is closed.
pub const NO_ROUND: u16 = 65535;

/// The verdict on a board.
#[derive(Clone, Debug, PartialEq, Eq)]
pub struct Verdict {
    /// Can all safe cells be opened without a guess?
    pub yes: bool,
    /// How many cells are open in the end.
    pub opened: usize,
    /// Of a yes the strongest rule that found a cell: 1 direct, 2 subtraction, 3 enumeration, 5 the mine total (of [`verdict_total`] alone), 0 none. Of a no 4.
    pub grade: usize,
    /// How many passes found a cell.
    pub rounds: usize,
    /// Each open cell's number, else 10.
    pub picture: Vec<u8>,
    /// The round in which each cell was opened: 0 for the start and what its zeros open, else the number of the pass, counted from 1. A pass that finds mines
    /// alone counts too. [`NO_ROUND`] where the cell is closed, as mines are.
    pub opened_in: Vec<u16>,
}

/// What is counted of a position's frontier.
#[derive(Clone, Copy, Debug, PartialEq, Eq)]
pub struct Frontier {
    /// Blocks of equations that share closed cells.
    pub blocks: usize,
    /// Closed cells that touch no open one.
    pub inside_cells: usize,
    /// Cells that are 11.
    pub known_mines: usize,
}

/// What a rule finds in a position.
#[derive(Clone, Debug, PartialEq, Eq)]
pub struct Deduction {
    /// The safe cells, in the rule's order.
    pub safe: Vec<u16>,
    /// The mines, in the rule's order.
    pub mines: Vec<u16>,
    /// The position with 12 at each safe cell and 11 at each mine.
    pub position: Vec<u8>,
}

/// The solutions of a block: a row for each, and in it how many mines each group of cells has.
#[derive(Clone, Debug, PartialEq, Eq)]
pub struct Table {
    /// How many rows.
    pub solutions: usize,
    /// How many bytes a row has.
    pub groups: usize,
    /// The rows, one after another.
    pub bytes: Vec<u8>,
}

impl Table {
    /// A row, by its number.
    pub fn row(&self, solution: usize) -> &[u8] {
        &self.bytes[solution * self.groups..(solution + 1) * self.groups]
    }
}

/// The exported functions. A slice is a pointer, which is never null, and a length.
mod exported {
    pub type Rule = unsafe extern "C" fn(usize, usize, *mut u8, usize, *mut u16, usize, *mut u16, usize, *mut u64, usize) -> u8;
    pub type Verdict = unsafe extern "C" fn(usize, usize, usize, usize, *const u8, usize, *mut u8, usize, *mut u16, usize, *mut u64, usize) -> u8;
    pub type Count = unsafe extern "C" fn(usize, usize, *const u8, usize, *mut u64, usize) -> u8;

    extern "C" {
        pub fn lihvompa_frontier(rows: usize, columns: usize, position: *const u8, length: usize, counts: *mut u64, counted: usize) -> u8;
        pub fn lihvompa_direct(
            rows: usize, columns: usize, position: *mut u8, length: usize, safe: *mut u16, safe_length: usize, mines: *mut u16, mines_length: usize,
            counts: *mut u64, counted: usize,
        ) -> u8;
        pub fn lihvompa_minus(
            rows: usize, columns: usize, position: *mut u8, length: usize, safe: *mut u16, safe_length: usize, mines: *mut u16, mines_length: usize,
            counts: *mut u64, counted: usize,
        ) -> u8;
        pub fn lihvompa_enumerate(
            rows: usize, columns: usize, position: *mut u8, length: usize, safe: *mut u16, safe_length: usize, mines: *mut u16, mines_length: usize,
            counts: *mut u64, counted: usize,
        ) -> u8;
        pub fn lihvompa_table(
            rows: usize, columns: usize, position: *const u8, length: usize, block: usize, table: *mut u8, table_length: usize,
            counts: *mut u64, counted: usize,
        ) -> u8;
        pub fn lihvompa_pattern(rows: usize, columns: usize, cells: *const u8, length: usize, counts: *mut u64, counted: usize) -> u8;
        pub fn lihvompa_bbbv(rows: usize, columns: usize, cells: *const u8, length: usize, counts: *mut u64, counted: usize) -> u8;
        pub fn lihvompa_verdict(
            rows: usize, columns: usize, start_row: usize, start_column: usize, cells: *const u8, length: usize, picture: *mut u8, picture_length: usize,
            opened_in: *mut u16, opened_in_length: usize, counts: *mut u64, counted: usize,
        ) -> u8;
        pub fn lihvompa_verdict_total(
            rows: usize, columns: usize, start_row: usize, start_column: usize, cells: *const u8, length: usize, picture: *mut u8, picture_length: usize,
            opened_in: *mut u16, opened_in_length: usize, counts: *mut u64, counted: usize,
        ) -> u8;
    }
}

/// The counts, or the refusal that a number names.
fn answered<const N: usize>(number: u8, counts: [u64; N]) -> Result<[usize; N], Refusal> {
    Err(match number {
        0 => return Ok(counts.map(|count| count as usize)),
        1 => Refusal::Size,
        2 => Refusal::Length,
        3 => Refusal::Cell,
        4 => Refusal::Start,
        5 => Refusal::Number,
        6 => Refusal::Contradiction,
        8 => Refusal::Block,
        9 => Refusal::Table,
        13 => Refusal::StartMine,
        _ => unreachable!("no call answers {number}"),
    })
}

fn judged(call: exported::Verdict, rows: usize, columns: usize, start: (usize, usize), cells: &[u8]) -> Result<Verdict, Refusal> {
    let (mut picture, mut opened_in) = (vec![10; cells.len()], vec![0; cells.len()]);
    let mut counts = [0; 4];
    // each pointer is of a live slice of the length beside it, and no two slices overlap; so in every call below
    let number = unsafe {
        call(
            rows, columns, start.0, start.1, cells.as_ptr(), cells.len(), picture.as_mut_ptr(), picture.len(), opened_in.as_mut_ptr(), opened_in.len(),
            counts.as_mut_ptr(), counts.len(),
        )
    };
    let [yes, opened, grade, rounds] = answered(number, counts)?;
    Ok(Verdict { yes: yes == 1, opened, grade, rounds, picture, opened_in })
}

/// The verdict on a board from a start. A start on a mine is refused, as the last test. A start of 255, 255, which once meant the first 0 in reading order, is off
/// every board.
pub fn verdict(rows: usize, columns: usize, start: (usize, usize), cells: &[u8]) -> Result<Verdict, Refusal> {
    judged(exported::lihvompa_verdict, rows, columns, start, cells)
}

/// The verdict on a board that shows its mine total, which is that of its own mines. Where enumeration finds nothing, each closed cell is found, on the frontier or
/// off it, that is the same in every layout of that total that fits, mines included. Nothing that [`verdict`] opens is lost. It is refused as that is.
///
/// ```
/// // the mine beside the start is the only one, so the cell behind it is safe
/// let board = [1, 255, 1];
/// assert!(!lihvompa::verdict(1, 3, (0, 0), &board).unwrap().yes);
/// let verdict = lihvompa::verdict_total(1, 3, (0, 0), &board).unwrap();
/// assert!(verdict.yes);
/// assert_eq!((verdict.opened, verdict.grade, verdict.rounds), (2, 5, 2));
/// ```
pub fn verdict_total(rows: usize, columns: usize, start: (usize, usize), cells: &[u8]) -> Result<Verdict, Refusal> {
    judged(exported::lihvompa_verdict_total, rows, columns, start, cells)
}

fn counted<const N: usize>(call: exported::Count, rows: usize, columns: usize, cells: &[u8]) -> Result<[usize; N], Refusal> {
    let mut counts = [0; N];
    let number = unsafe { call(rows, columns, cells.as_ptr(), cells.len(), counts.as_mut_ptr(), counts.len()) };
    answered(number, counts)
}

/// Whether a board has a pattern of mines that leaves a guess. Only mines are looked at.
pub fn pattern(rows: usize, columns: usize, cells: &[u8]) -> Result<bool, Refusal> {
    let [found] = counted(exported::lihvompa_pattern, rows, columns, cells)?;
    Ok(found == 1)
}

/// The 3BV of a board, by which players compare boards: its openings, each a group of 0s that touch at sides or corners, and its safe cells above 0 that touch
/// no 0. A board of mines alone has 0.
///
/// ```
/// // an opening, and a 2 that no 0 touches
/// assert_eq!(lihvompa::bbbv(1, 5, &[0, 1, 255, 2, 255]), Ok(2));
/// ```
pub fn bbbv(rows: usize, columns: usize, cells: &[u8]) -> Result<usize, Refusal> {
    let [bbbv] = counted(exported::lihvompa_bbbv, rows, columns, cells)?;
    Ok(bbbv)
}

/// What is counted of a position's frontier.
pub fn frontier(rows: usize, columns: usize, position: &[u8]) -> Result<Frontier, Refusal> {
    let [blocks, inside_cells, known_mines] = counted(exported::lihvompa_frontier, rows, columns, position)?;
    Ok(Frontier { blocks, inside_cells, known_mines })
}

fn deduction(rule: exported::Rule, rows: usize, columns: usize, position: &[u8]) -> Result<Deduction, Refusal> {
    let mut position = position.to_vec();
    let (mut safe, mut mines) = (vec![0; position.len()], vec![0; position.len()]);
    let mut counts = [0; 2];
    let number = unsafe {
        rule(
            rows, columns, position.as_mut_ptr(), position.len(), safe.as_mut_ptr(), safe.len(), mines.as_mut_ptr(), mines.len(),
            counts.as_mut_ptr(), counts.len(),
        )
    };
    let [found_safe, found_mines] = answered(number, counts)?;
    safe.truncate(found_safe);
    mines.truncate(found_mines);
    Ok(Deduction { safe, mines, position })
}

/// The direct rule: equations whose remainder is 0, or the number of their cells.
pub fn direct(rows: usize, columns: usize, position: &[u8]) -> Result<Deduction, Refusal> {
    deduction(exported::lihvompa_direct, rows, columns, position)
}

/// The subtraction rule: two equations that share a cell, then one direct pass.
pub fn minus(rows: usize, columns: usize, position: &[u8]) -> Result<Deduction, Refusal> {
    deduction(exported::lihvompa_minus, rows, columns, position)
}

/// Enumeration: each cell that is safe in all solutions of its block, or a mine in all.
pub fn enumerate(rows: usize, columns: usize, position: &[u8]) -> Result<Deduction, Refusal> {
    deduction(exported::lihvompa_enumerate, rows, columns, position)
}

/// The solution table of one block of a position's frontier, by its number; refused where it has more than `room` bytes.
pub fn table(rows: usize, columns: usize, position: &[u8], block: usize, room: usize) -> Result<Table, Refusal> {
    let mut bytes = vec![0; room];
    let mut counts = [0; 2];
    let number = unsafe {
        exported::lihvompa_table(
            rows, columns, position.as_ptr(), position.len(), block, bytes.as_mut_ptr(), bytes.len(), counts.as_mut_ptr(), counts.len(),
        )
    };
    let [solutions, groups] = answered(number, counts)?;
    bytes.truncate(solutions * groups);
    Ok(Table { solutions, groups, bytes })
}
