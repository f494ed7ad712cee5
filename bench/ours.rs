// Our calls, as the static library has them: a slice is a pointer and a length, the answer is 0 or the number of a refusal, counts go to a lent slice.
type Deduction = unsafe extern "C" fn(usize, usize, *mut u8, usize, *mut u16, usize, *mut u16, usize, *mut u64, usize) -> u8;
type Judging = unsafe extern "C" fn(usize, usize, usize, usize, *const u8, usize, *mut u8, usize, *mut u16, usize, *mut u64, usize) -> u8;

extern "C" {
    fn lihvompa_frontier(rows: usize, columns: usize, position: *const u8, length: usize, counts: *mut u64, counts_length: usize) -> u8;
    pub fn lihvompa_direct(
        rows: usize, columns: usize, position: *mut u8, length: usize, safe: *mut u16, safe_length: usize, mines: *mut u16, mines_length: usize,
        counts: *mut u64, counts_length: usize,
    ) -> u8;
    pub fn lihvompa_minus(
        rows: usize, columns: usize, position: *mut u8, length: usize, safe: *mut u16, safe_length: usize, mines: *mut u16, mines_length: usize,
        counts: *mut u64, counts_length: usize,
    ) -> u8;
    pub fn lihvompa_enumerate(
        rows: usize, columns: usize, position: *mut u8, length: usize, safe: *mut u16, safe_length: usize, mines: *mut u16, mines_length: usize,
        counts: *mut u64, counts_length: usize,
    ) -> u8;
    fn lihvompa_table(
        rows: usize, columns: usize, position: *const u8, length: usize, block: usize, table: *mut u8, table_length: usize, counts: *mut u64, counts_length: usize,
    ) -> u8;
    fn lihvompa_pattern(rows: usize, columns: usize, cells: *const u8, length: usize, counts: *mut u64, counts_length: usize) -> u8;
    fn lihvompa_bbbv(rows: usize, columns: usize, cells: *const u8, length: usize, counts: *mut u64, counts_length: usize) -> u8;
    pub fn lihvompa_verdict(
        rows: usize, columns: usize, start_row: usize, start_column: usize, cells: *const u8, length: usize, picture: *mut u8, picture_length: usize,
        opened_in: *mut u16, opened_in_length: usize, counts: *mut u64, counts_length: usize,
    ) -> u8;
    pub fn lihvompa_verdict_total(
        rows: usize, columns: usize, start_row: usize, start_column: usize, cells: *const u8, length: usize, picture: *mut u8, picture_length: usize,
        opened_in: *mut u16, opened_in_length: usize, counts: *mut u64, counts_length: usize,
    ) -> u8;
}

/// Blocks, inside cells and known mines.
pub fn frontier(rows: usize, columns: usize, position: &[u8]) -> [u64; 3] {
    let mut counts = [0; 3];
    let refusal = unsafe { lihvompa_frontier(rows, columns, position.as_ptr(), position.len(), counts.as_mut_ptr(), counts.len()) };
    assert_eq!(refusal, 0);
    counts
}

/// The safe cells and mines that a rule finds in a copy of the position, counted.
pub fn rule(call: Deduction, rows: usize, columns: usize, position: &[u8]) -> [u64; 2] {
    let mut p = position.to_vec();
    let (mut safe, mut mines, mut counts) = ([0u16; 1024], [0u16; 1024], [0; 2]);
    let refusal = unsafe {
        call(rows, columns, p.as_mut_ptr(), p.len(), safe.as_mut_ptr(), safe.len(), mines.as_mut_ptr(), mines.len(), counts.as_mut_ptr(), counts.len())
    };
    assert_eq!(refusal, 0);
    counts
}

/// Solutions and groups of a block, whose table has room.
pub fn table(rows: usize, columns: usize, position: &[u8], block: usize, room: &mut [u8]) -> [u64; 2] {
    let mut counts = [0; 2];
    let refusal = unsafe {
        lihvompa_table(rows, columns, position.as_ptr(), position.len(), block, room.as_mut_ptr(), room.len(), counts.as_mut_ptr(), counts.len())
    };
    assert_eq!(refusal, 0);
    counts
}

/// 1 where a pattern is found.
pub fn pattern(rows: usize, columns: usize, cells: &[u8]) -> u64 {
    let mut counts = [0; 1];
    let refusal = unsafe { lihvompa_pattern(rows, columns, cells.as_ptr(), cells.len(), counts.as_mut_ptr(), counts.len()) };
    assert_eq!(refusal, 0);
    counts[0]
}

/// The number of the refusal, or 0, and the 3BV.
pub fn bbbv(rows: usize, columns: usize, cells: &[u8]) -> (u8, u64) {
    let mut counts = [0; 1];
    let refusal = unsafe { lihvompa_bbbv(rows, columns, cells.as_ptr(), cells.len(), counts.as_mut_ptr(), counts.len()) };
    (refusal, counts[0])
}

/// All that a verdict writes.
#[derive(Debug)]
pub struct Verdict {
    /// yes or no, opened cells, grade and rounds
    pub counts: [u64; 4],
    pub picture: Vec<u8>,
    pub opened_in: Vec<u16>,
}

/// The verdict without the mine total or with it, by the call.
pub fn verdict(call: Judging, rows: usize, columns: usize, start: (usize, usize), cells: &[u8]) -> Verdict {
    let (mut picture, mut opened_in, mut counts) = (vec![0; cells.len()], vec![0; cells.len()], [0; 4]);
    let refusal = unsafe {
        call(
            rows, columns, start.0, start.1, cells.as_ptr(), cells.len(), picture.as_mut_ptr(), picture.len(), opened_in.as_mut_ptr(), opened_in.len(),
            counts.as_mut_ptr(), counts.len(),
        )
    };
    assert_eq!(refusal, 0);
    Verdict { counts, picture, opened_in }
}
