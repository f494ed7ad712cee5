// The Rust as oracle: the functions of ms-toollib that SPECIFICATION 15.1 names are included unchanged (see build); everything in this file
// is glue and printing, verdict.rs is the loop of passes of SPECIFICATION 9. It reads lines from standard input and prints, a line each, what the named function answers.
//
//   oracle frontier | direct | minus | enumerate | table        lines `R C v v v ...`, a position
//   oracle enumerate-rust                                       the same, with the Rust's own lists (docs/DIFFERENCES.md)
//   oracle pattern | bbbv                                       lines `R C v v v ...`, a board, 255 a mine
//   oracle is_solvable | verdict                                lines `R C r c v v v ...`, a board and its start; a verdict has its picture and the round of each cell
//   oracle strongest                                            the same, with the strongest rule that found a cell, which the grade of a no does not tell
//   oracle judge [--pictures]                                   records (SPECIFICATION 5.1) from standard input
//
// A line or record at which the Rust panics is answered `panic`. Each line goes out at once, so that one who stops waiting has all lines before.
use std::io::{BufRead, Read, Write};

include!("shim.rs");
include!("verdict.rs");

// ---- boards and records ----

fn grid(rows: usize, columns: usize, cells: &[u8]) -> Grid {
    let value = |c: u8| if c == 255 { -1 } else { c as i32 };
    (0..rows).map(|i| (0..columns).map(|j| value(cells[i * columns + j])).collect()).collect()
}

/// Has every safe cell the number of its neighbouring mines?
fn numbers_right(board: &Grid) -> bool {
    let (rows, columns) = (board.len(), board[0].len());
    for i in 0..rows {
        for j in 0..columns {
            let mut mines = 0;
            for m in max(1, i) - 1..min(rows, i + 2) {
                for n in max(1, j) - 1..min(columns, j + 2) {
                    mines += (board[m][n] == -1) as i32;
                }
            }
            if board[i][j] >= 0 && board[i][j] != mines {
                return false;
            }
        }
    }
    true
}

/// The 3BV of a board, or the refusal of a number that is not right.
fn bbbv_text(board: &Grid) -> String {
    if !numbers_right(board) {
        return "refused 5".into();
    }
    cal_bbbv(board).to_string()
}

/// Rows, columns, start row, start column and cells, tested in the order of SPECIFICATION 3: the verdict, or the refusal.
fn judged(head: &[i64], cells: &[i64]) -> Result<Verdict, usize> {
    let (rows, columns, row, column) = (head[0], head[1], head[2], head[3]);
    if rows < 1 || columns < 1 || rows > 32 || columns > 32 {
        return Err(1);
    }
    if cells.len() as i64 != rows * columns {
        return Err(2);
    }
    if cells.iter().any(|&c| !(0..=8).contains(&c) && c != 255) {
        return Err(3);
    }
    if !(0..rows).contains(&row) || !(0..columns).contains(&column) {
        return Err(4);
    }
    let board = grid(rows as usize, columns as usize, &cells.iter().map(|&c| c as u8).collect::<Vec<_>>());
    if !numbers_right(&board) {
        return Err(5);
    }
    if board[row as usize][column as usize] == -1 {
        return Err(13);
    }
    Ok(verdict(&board, (row as usize, column as usize)))
}

/// What is answered to these numbers: `refused N`, or yes or no and what else is told of the verdict.
fn judged_text(numbers: &[i64], told: impl Fn(&Verdict) -> String) -> String {
    match judged(&numbers[..4], &numbers[4..]) {
        Err(refusal) => format!("refused {}", refusal),
        Ok(v) => format!("{} {}", if v.yes { "yes" } else { "no" }, told(&v)),
    }
}

/// Opened cells, grade and rounds, and the picture behind the words given.
fn counts_text(v: &Verdict, before_picture: Option<&str>) -> String {
    let picture = before_picture.map_or(String::new(), |words| words.to_string() + &values(&v.picture));
    format!("{} {} {}{}", v.opened, v.grade, v.rounds, picture)
}

/// Opened cells, grade, rounds and the picture, and the round in which each cell was opened.
fn verdict_text(v: &Verdict) -> String {
    format!("{} rounds {}", counts_text(v, Some(" picture ")), values(&v.opened_in))
}

fn judge(input: &[u8], pictures: bool, out: &mut dyn Write) {
    put_line("board verdict opened grade rounds", out);
    let before_picture = if pictures { Some("\npos ") } else { None };
    let (mut at, mut number) = (0, 0);
    while at < input.len() {
        number += 1;
        let rest = &input[at..];
        // 4D 43 too is unknown here: the Rust has no verdict with the mine total shown (see total.py)
        if rest.len() >= 2 && rest[..2] != [0x4D, 0x42] {
            return put_line(&format!("{} refused 10", number), out);
        }
        if rest.len() < 6 || rest.len() < 6 + rest[2] as usize * rest[3] as usize {
            return put_line(&format!("{} refused 11", number), out);
        }
        let size = 6 + rest[2] as usize * rest[3] as usize;
        let numbers: Vec<i64> = rest[2..size].iter().map(|&b| b as i64).collect();
        let text = std::panic::catch_unwind(|| judged_text(&numbers, |v| counts_text(v, before_picture))).unwrap_or("panic".into());
        put_line(&format!("{} {}", number, text), out);
        at += size;
    }
}

// ---- positions as text ----

fn list(cells: &[Cell], columns: usize) -> String {
    if cells.is_empty() {
        return "-".into();
    }
    cells.iter().map(|c| (c.0 * columns + c.1).to_string()).collect::<Vec<_>>().join(",")
}

fn blocks(a: &Vec<Vec<Vec<i32>>>, x: &Vec<Vec<Cell>>, b: &Vec<Vec<i32>>, columns: usize) -> String {
    let mut text = format!("blocks {}", x.len());
    for i in 0..x.len() {
        text += &format!(" [{}", list(&x[i], columns));
        for e in 0..b[i].len() {
            let cells: Vec<Cell> = (0..x[i].len()).filter(|&k| a[i][e][k] >= 1).map(|k| x[i][k]).collect();
            text += &format!(" | {}={}", b[i][e], list(&cells, columns));
        }
        text += "]";
    }
    text
}

fn values<T: ToString>(g: &[Vec<T>]) -> String {
    g.iter().flatten().map(|c| c.to_string()).collect::<Vec<_>>().join(" ")
}

fn position(g: &Grid) -> String {
    format!("pos {}", values(g))
}

fn put_line(text: &str, out: &mut dyn Write) {
    writeln!(out, "{}", text).and_then(|_| out.flush()).unwrap();
}

/// One line in, one line out.
fn answer(mode: &str, numbers: &[i64]) -> String {
    let head = if matches!(mode, "is_solvable" | "verdict" | "strongest") { 4 } else { 2 };
    if numbers.len() < head {
        return "unreadable".into();
    }
    match mode {
        "verdict" => return judged_text(numbers, verdict_text),
        "strongest" => return judged_text(numbers, |v| v.strongest.to_string()),
        _ => {}
    }
    let on_board = matches!(mode, "pattern" | "bbbv" | "is_solvable");
    let least = if mode == "pattern" { 3 } else { 1 };
    let (rows, columns, values) = (numbers[0], numbers[1], &numbers[head..]);
    if rows < least || columns < least || rows > 32 || columns > 32 {
        return "refused 1".into();
    }
    let (rows, columns) = (rows as usize, columns as usize);
    if values.len() != rows * columns {
        return "refused 2".into();
    }
    let known = |v: i64| (0..=8).contains(&v) || if on_board { v == 255 } else { (10..=12).contains(&v) };
    if values.iter().any(|&v| !known(v)) {
        return "refused 3".into();
    }
    let mut g = grid(rows, columns, &values.iter().map(|&v| v as u8).collect::<Vec<_>>());
    match mode {
        "pattern" => return unsolvable_structure(&g).to_string(),
        "bbbv" => return bbbv_text(&g),
        "is_solvable" => return is_solvable(&g, numbers[2] as usize, numbers[3] as usize).to_string(),
        _ => {}
    }
    let (mut a, mut x, mut b, inside, known) = refresh_matrixs(&g);
    match mode {
        "frontier" => format!("inside {} mines {} {}", inside, known, blocks(&a, &x, &b, columns)),
        "direct" | "minus" => {
            let rule = if mode == "direct" { solve_direct } else { solve_minus };
            match rule(&mut a, &mut x, &mut b, &mut g) {
                Err(refusal) => format!("refused {}", refusal),
                Ok((safe, mines)) => format!(
                    "safe {} mine {} {} {}",
                    list(&safe, columns),
                    list(&mines, columns),
                    position(&g),
                    blocks(&a, &x, &b, columns)
                ),
            }
        }
        "enumerate" | "enumerate-rust" => {
            let found = if mode == "enumerate" { enumerate(&a, &x, &b) } else { Some(solve_enumerate(&a, &x, &b)) };
            match found {
                None => "refused 6".into(),
                Some((safe, mines)) => {
                    for &(i, j) in &safe {
                        g[i][j] = 12;
                    }
                    for &(i, j) in &mines {
                        g[i][j] = 11;
                    }
                    format!("safe {} mine {} {}", list(&safe, columns), list(&mines, columns), position(&g))
                }
            }
        }
        "table" => {
            let mut text = format!("blocks {}", x.len());
            for i in 0..x.len() {
                let (squeezed, _, groups) = combine(&a[i], &x[i]);
                let negative = b[i].iter().any(|&r| r < 0);
                let table = if negative { vec![] } else { cal_all_solution(&squeezed, &b[i]) };
                let row = |r: &Vec<u8>| r.iter().map(|v| v.to_string()).collect::<Vec<_>>().join(" ");
                let rows = table.iter().map(row).collect::<Vec<_>>().join(" / ");
                let rows = if table.is_empty() { "-".into() } else { rows };
                text += &format!(" [groups {} solutions {} rows {}]", groups.len(), table.len(), rows);
            }
            text
        }
        _ => panic!("no such mode"),
    }
}

fn run() {
    let words: Vec<String> = std::env::args().skip(1).collect();
    let mode = words.get(0).cloned().unwrap_or_default();
    std::panic::set_hook(Box::new(|_| {}));
    let mut out = std::io::BufWriter::new(std::io::stdout().lock());
    match mode.as_str() {
        "judge" => {
            let mut input = vec![];
            std::io::stdin().lock().read_to_end(&mut input).unwrap();
            judge(&input, words.iter().any(|w| w == "--pictures"), &mut out);
        }
        "frontier" | "direct" | "minus" | "enumerate" | "enumerate-rust" | "table" | "pattern" | "bbbv" | "is_solvable" | "verdict" | "strongest" => {
            for line in std::io::stdin().lock().lines() {
                let line = line.unwrap().replace('/', " ");
                let numbers: Result<Vec<i64>, _> = line.split_whitespace().map(|w| w.parse::<i64>()).collect();
                let text = match numbers {
                    Err(_) => "unreadable".into(),
                    Ok(n) => std::panic::catch_unwind(|| answer(&mode, &n)).unwrap_or("panic".into()),
                };
                put_line(&text, &mut out);
            }
        }
        _ => {
            eprintln!("oracle: the first word is one of frontier direct minus enumerate enumerate-rust table pattern bbbv is_solvable verdict strongest judge");
            std::process::exit(2);
        }
    }
}

fn main() {
    // the Rust's recursion over the groups of a block may be deep
    std::thread::Builder::new().stack_size(256 << 20).spawn(run).unwrap().join().unwrap();
}
