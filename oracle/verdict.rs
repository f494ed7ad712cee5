// The verdict of SPECIFICATION 9 over the Rust's functions: its loop of passes, and enumeration by 8.6 on the Rust's counts. The oracle and the benchmark both
// include this file behind shim.rs.
type Grid = Vec<Vec<i32>>;
type Cell = (usize, usize);

// ---- enumeration by SPECIFICATION 8.6, in the Rust's order, on the Rust's counts ----

/// The safe cells and the mines, or None where a block has no solution.
fn enumerate(a: &Vec<Vec<Vec<i32>>>, x: &Vec<Vec<Cell>>, b: &Vec<Vec<i32>>) -> Option<(Vec<Cell>, Vec<Cell>)> {
    let (mut safe, mut mines) = (vec![], vec![]);
    for i in 0..x.len() {
        if b[i].iter().any(|&r| r < 0) {
            return None;
        }
        let (squeezed, cells, groups) = combine(&a[i], &x[i]);
        let (counts, with) = cal_table_minenum_recursion(&squeezed, &cells, &b[i], &groups).ok()?;
        let all: usize = counts[1].iter().sum();
        for j in 0..groups.len() {
            let mined: usize = with.iter().map(|r| r[j]).sum();
            for &k in &groups[j] {
                if mined == 0 {
                    safe.push(x[i][k]);
                } else if mined == all {
                    mines.push(x[i][k]);
                }
            }
        }
    }
    Some((safe, mines))
}

// ---- the verdict of SPECIFICATION 9 over the Rust's functions ----

/// Stands where a cell has no round: it is closed.
const NO_ROUND: u16 = 65535;

#[derive(Debug)]
struct Verdict {
    yes: bool,
    opened: usize,
    /// the strongest rule that found a cell, of a no too
    strongest: usize,
    grade: usize,
    rounds: usize,
    picture: Grid,
    /// the round in which each cell was opened: 0 for the start and what its zeros open, else the number of the pass
    opened_in: Vec<Vec<u16>>,
}

/// Gives this round to each open cell that has none, and counts the open cells.
fn give_round(g: &Grid, round: usize, opened_in: &mut Vec<Vec<u16>>) -> usize {
    let mut opened = 0;
    for (cells, rounds) in g.iter().zip(opened_in) {
        for (&cell, own) in cells.iter().zip(rounds) {
            if cell < 10 {
                opened += 1;
                if *own == NO_ROUND {
                    *own = round as u16;
                }
            }
        }
    }
    opened
}

/// The start is safe: a start on a mine is refused with 13 before, and the benchmark's boards start at a 0.
fn verdict(board: &Grid, start: Cell) -> Verdict {
    let (rows, columns) = (board.len(), board[0].len());
    let mut g = vec![vec![10; columns]; rows];
    let opened_in = vec![vec![NO_ROUND; columns]; rows];
    let mut v = Verdict { yes: false, opened: 0, strongest: 0, grade: 4, rounds: 0, picture: g.clone(), opened_in };
    let safe_cells = board.iter().flatten().filter(|&&c| c != -1).count();
    refresh_board(board, &mut g, vec![start]);
    loop {
        // what is open and has no round was opened by the flood just before, of the start or of the last pass
        v.opened = give_round(&g, v.rounds, &mut v.opened_in);
        if v.opened == safe_cells {
            v.yes = true;
            v.grade = v.strongest;
            break;
        }
        let mut rule = 1;
        let (mut a, mut x, mut b, _, _) = refresh_matrixs(&g);
        let mut found = solve_direct(&mut a, &mut x, &mut b, &mut g).unwrap();
        if found.0.is_empty() && found.1.is_empty() {
            rule = 2;
            let (mut a, mut x, mut b, _, _) = refresh_matrixs(&g);
            found = solve_minus(&mut a, &mut x, &mut b, &mut g).unwrap();
        }
        if found.0.is_empty() && found.1.is_empty() {
            rule = 3;
            let (a, x, b, _, _) = refresh_matrixs(&g);
            found = enumerate(&a, &x, &b).expect("a true position has a layout");
        }
        if found.0.is_empty() && found.1.is_empty() {
            break;
        }
        v.rounds += 1;
        v.strongest = max(v.strongest, rule);
        for &(i, j) in &found.0 {
            g[i][j] = 12;
        }
        for &(i, j) in &found.1 {
            g[i][j] = 11;
        }
        refresh_board(board, &mut g, found.0);
    }
    v.picture = g.iter().map(|row| row.iter().map(|&c| if c < 10 { c } else { 10 }).collect()).collect();
    v
}
