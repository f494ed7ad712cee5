// Times our calls beside the Rust's functions, on the same boards and positions in one process; the two sides take turns, so that whatever else the machine
// does meets both, and every answer is compared on the way. Boards are random, from a seed; positions come from games that the Rust's rules play on them. The
// verdict with the mine total shown, which the Rust has not, is timed beside ours without it.
//
//   bench [HARD]        HARD is a file of records to judge too, one by one
include!("../oracle/shim.rs");
include!("../oracle/verdict.rs");

mod ours;
mod values;

use std::time::Instant;

/// A small generator of its own, so that a seed gives the same boards everywhere.
struct Random(u64);
impl Random {
    fn below(&mut self, n: usize) -> usize {
        self.0 ^= self.0 << 13;
        self.0 ^= self.0 >> 7;
        self.0 ^= self.0 << 17;
        (self.0 % n as u64) as usize
    }
}

/// A board as the Rust has it and as we have it.
struct Board {
    rows: usize,
    columns: usize,
    start: Cell,
    grid: Grid,
    bytes: Vec<u8>,
}

fn bytes_of(g: &Grid) -> Vec<u8> {
    g.iter().flatten().map(|&v| v as u8).collect()
}

/// Gives each safe cell the number of its neighbouring mines.
fn number(g: &mut Grid) {
    let (rows, columns) = (g.len(), g[0].len());
    for i in 0..rows {
        for j in 0..columns {
            if g[i][j] != -1 {
                for m in max(1, i) - 1..min(rows, i + 2) {
                    for n in max(1, j) - 1..min(columns, j + 2) {
                        g[i][j] += (g[m][n] == -1) as i32;
                    }
                }
            }
        }
    }
}

/// A random board with so many mines, started at its first 0; None where it has no 0.
fn board(random: &mut Random, rows: usize, columns: usize, mines: usize) -> Option<Board> {
    let mut g = vec![vec![0; columns]; rows];
    let mut left = mines;
    while left > 0 {
        let (i, j) = (random.below(rows), random.below(columns));
        if g[i][j] != -1 {
            g[i][j] = -1;
            left -= 1;
        }
    }
    number(&mut g);
    let c = (0..rows * columns).find(|c| g[c / columns][c % columns] == 0)?;
    Some(Board { rows, columns, start: (c / columns, c % columns), bytes: bytes_of(&g), grid: g })
}

fn boards(random: &mut Random, rows: usize, columns: usize, mines: usize, count: usize) -> Vec<Board> {
    let mut all = vec![];
    while all.len() < count {
        all.extend(board(random, rows, columns, mines));
    }
    all
}

// ---- both sides in turns ----

/// Seconds in all, and of the slowest call.
#[derive(Clone, Copy, Default)]
struct Time {
    all: f64,
    slowest: f64,
}

fn timed<T>(time: &mut Time, call: impl FnOnce() -> T) -> T {
    let begin = Instant::now();
    let answer = call();
    let seconds = begin.elapsed().as_secs_f64();
    time.all += seconds;
    time.slowest = time.slowest.max(seconds);
    answer
}

/// Runs both on each of `count` inputs, a hundred at a time, and looks at the two answers to each, which is not timed.
fn in_turns<R, O>(count: usize, one: impl Fn(usize) -> R, other: impl Fn(usize) -> O, mut look: impl FnMut(R, O)) -> (Time, Time) {
    let (mut one_time, mut other_time) = (Time::default(), Time::default());
    for first in (0..count).step_by(100) {
        let turn = first..min(first + 100, count);
        let from_one: Vec<R> = turn.clone().map(|k| timed(&mut one_time, || one(k))).collect();
        let from_other: Vec<O> = turn.map(|k| timed(&mut other_time, || other(k))).collect();
        from_one.into_iter().zip(from_other).for_each(|(r, o)| look(r, o));
    }
    (one_time, other_time)
}

/// Runs both in turns, and sees that their answers are equal.
fn turns<R, O>(name: &str, count: usize, rust: impl Fn(usize) -> R, ours: impl Fn(usize) -> O) -> (Time, Time)
where
    R: PartialEq<O> + std::fmt::Debug,
    O: std::fmt::Debug,
{
    in_turns(count, rust, ours, |r, o| assert_eq!(r, o, "the answers of {} differ", name))
}

/// Three rounds of a call, each printed with the mean time of both sides and their ratio.
fn compare<T: PartialEq + std::fmt::Debug>(name: &str, count: usize, rust: impl Fn(usize) -> T, ours: impl Fn(usize) -> T) {
    for round in 1..=3 {
        let (r, o) = turns(name, count, &rust, &ours);
        let each = 1e6 / count as f64;
        println!("  {}, round {}: rust {:.2} us, ours {:.2} us, ratio {:.2}", name, round, r.all * each, o.all * each, r.all / o.all);
    }
}

// ---- positions of played games ----

/// The positions of one game, each as it is before a pass of the direct rule and subtraction; the last is one at which both find nothing.
fn played(board: &Board) -> Vec<Grid> {
    let mut out = vec![];
    let mut g = vec![vec![10; board.columns]; board.rows];
    refresh_board(&board.grid, &mut g, vec![board.start]);
    loop {
        out.push(g.clone());
        let (mut a, mut x, mut b, _, _) = refresh_matrixs(&g);
        let mut found = solve_direct(&mut a, &mut x, &mut b, &mut g).unwrap();
        if found.0.is_empty() && found.1.is_empty() {
            found = solve_minus(&mut a, &mut x, &mut b, &mut g).unwrap();
        }
        if found.0.is_empty() && found.1.is_empty() {
            return out;
        }
        refresh_board(&board.grid, &mut g, found.0);
    }
}

/// A rule of the Rust that marks the position.
type Rule = fn(&mut Vec<Vec<Vec<i32>>>, &mut Vec<Vec<Cell>>, &mut Vec<Vec<i32>>, &mut Grid) -> Result<(Vec<Cell>, Vec<Cell>), usize>;

/// How many safe cells and mines the Rust's rule finds in a fresh frontier of a copy of the position.
fn rust_rule(rule: Rule, position: &Grid) -> [u64; 2] {
    let mut g = position.clone();
    let (mut a, mut x, mut b, _, _) = refresh_matrixs(&g);
    let (safe, mines) = rule(&mut a, &mut x, &mut b, &mut g).unwrap();
    [safe.len() as u64, mines.len() as u64]
}

/// Solutions and groups of a position's first block, from a table of all its rows.
fn rust_table(position: &Grid) -> [u64; 2] {
    let (a, x, b, _, _) = refresh_matrixs(position);
    let (squeezed, _, groups) = combine(&a[0], &x[0]);
    [cal_all_solution(&squeezed, &b[0]).len() as u64, groups.len() as u64]
}

/// The table of the first block at played positions, where it has at most 16,384 bytes.
fn tables(rows: usize, columns: usize, positions: &[Grid]) {
    let some: Vec<&Grid> = positions.iter().filter(|g| !refresh_matrixs(g).1.is_empty()).filter(|g| rust_table(g).iter().product::<u64>() <= 16384).collect();
    let bytes: Vec<Vec<u8>> = some.iter().map(|g| bytes_of(g)).collect();
    println!("{} positions with a first block whose table has at most 16,384 bytes", some.len());
    compare("table", some.len(), |k| rust_table(some[k]), |k| ours::table(rows, columns, &bytes[k], 0, &mut [0; 16384]));
}

/// The frontier, the rules and the table on played positions.
fn rules(random: &mut Random, rows: usize, columns: usize, mines: usize, games: usize) {
    let games = boards(random, rows, columns, mines, games);
    let positions: Vec<Grid> = games.iter().flat_map(played).collect();
    let stuck: Vec<Grid> = games.iter().filter_map(|g| played(g).pop()).collect();
    let bytes: Vec<Vec<u8>> = positions.iter().map(bytes_of).collect();
    let stuck_bytes: Vec<Vec<u8>> = stuck.iter().map(bytes_of).collect();
    println!("{} positions of {} games, {} x {} with {} mines", positions.len(), games.len(), rows, columns, mines);
    compare("frontier", positions.len(), |k| refresh_matrixs(&positions[k]).1.len() as u64, |k| ours::frontier(rows, columns, &bytes[k])[0]);
    compare("direct", positions.len(), |k| rust_rule(solve_direct, &positions[k]), |k| ours::rule(ours::lihvompa_direct, rows, columns, &bytes[k]));
    compare("minus", positions.len(), |k| rust_rule(solve_minus, &positions[k]), |k| ours::rule(ours::lihvompa_minus, rows, columns, &bytes[k]));
    let enumerated = |g: &Grid| {
        let (a, x, b, _, _) = refresh_matrixs(g);
        let (safe, mines) = enumerate(&a, &x, &b).unwrap();
        [safe.len() as u64, mines.len() as u64]
    };
    println!("{} positions at which both rules find nothing", stuck.len());
    compare("enumerate", stuck.len(), |k| enumerated(&stuck[k]), |k| ours::rule(ours::lihvompa_enumerate, rows, columns, &stuck_bytes[k]));
    tables(rows, columns, &stuck);
}

fn patterns(random: &mut Random, rows: usize, columns: usize, mines: usize, count: usize) {
    let all = boards(random, rows, columns, mines, count);
    println!("{} boards of {} x {} with {} mines", count, rows, columns, mines);
    compare("pattern", count, |k| unsolvable_structure(&all[k].grid) as u64, |k| ours::pattern(rows, columns, &all[k].bytes));
}

/// The board with a wrong number at its last safe cell: all tests up to there are run, and it is refused.
fn wrong_at_the_end(b: &Board) -> Vec<u8> {
    let mut bytes = b.bytes.clone();
    let last = bytes.iter_mut().rev().find(|v| **v != 255).unwrap();
    *last = (*last + 1) % 9;
    bytes
}

/// A random board of any size and density with a safe cell, a 0 or not; for calls that have no start.
fn any_board(random: &mut Random) -> Board {
    loop {
        let (rows, columns, percent) = (1 + random.below(32), 1 + random.below(32), random.below(101));
        let mut g: Grid = (0..rows).map(|_| (0..columns).map(|_| if random.below(100) < percent { -1 } else { 0 }).collect()).collect();
        number(&mut g);
        if g.iter().flatten().any(|&v| v != -1) {
            return Board { rows, columns, start: (0, 0), bytes: bytes_of(&g), grid: g };
        }
    }
}

/// The 3BV. The Rust tests nothing, and ours cannot be called without its tests, so they are timed alone too and taken off. A hundred boards are timed in one go,
/// since to read the clock costs a part of what a small board does, and a round goes ten times through all boards, since one time is too short to be told from noise.
fn bbbvs(kind: &str, all: &[Board]) {
    let wrong: Vec<Vec<u8>> = all.iter().map(wrong_at_the_end).collect();
    let calls = 10 * all.len();
    println!("{} boards {}", all.len(), kind);
    for round in 1..=3 {
        let (mut rust, mut whole, mut tests) = (Time::default(), Time::default(), Time::default());
        for (some, refused) in all.chunks(100).zip(wrong.chunks(100)).cycle().take(calls / 100) {
            let wanted: Vec<_> = timed(&mut rust, || some.iter().map(|b| (0, cal_bbbv(&b.grid) as u64)).collect());
            let found: Vec<_> = timed(&mut whole, || some.iter().map(|b| ours::bbbv(b.rows, b.columns, &b.bytes)).collect());
            let tested: Vec<_> = timed(&mut tests, || some.iter().zip(refused).map(|(b, cells)| ours::bbbv(b.rows, b.columns, cells)).collect());
            assert_eq!(wanted, found, "the answers of bbbv differ");
            assert_eq!(tested, vec![(5, 0); refused.len()], "a wrong number is not refused");
        }
        let [r, o, without] = [rust.all, whole.all, whole.all - tests.all].map(|seconds| seconds * 1e6 / calls as f64);
        println!("  bbbv, round {}: rust {:.2} us, ours {:.2} us, without the tests {:.2} us, ratio without the tests {:.2}, with them {:.2}",
            round, r, o, without, r / without, r / o);
    }
}

// ---- verdicts ----

/// Yes or no, opened cells, grade and rounds are compared, the picture, and the round of each cell.
impl PartialEq<ours::Verdict> for Verdict {
    fn eq(&self, ours: &ours::Verdict) -> bool {
        let counts = [self.yes as u64, self.opened as u64, self.grade as u64, self.rounds as u64];
        counts == ours.counts && bytes_of(&self.picture) == ours.picture && self.opened_in.concat() == ours.opened_in
    }
}

/// The verdict by the Rust's functions in the loop of SPECIFICATION 9.
fn rust_verdict(b: &Board) -> Verdict {
    verdict(&b.grid, b.start)
}

fn our_verdict(b: &Board) -> ours::Verdict {
    ours::verdict(ours::lihvompa_verdict, b.rows, b.columns, b.start, &b.bytes)
}

/// Our verdict with the mine total shown.
fn our_verdict_with_total(b: &Board) -> ours::Verdict {
    ours::verdict(ours::lihvompa_verdict_total, b.rows, b.columns, b.start, &b.bytes)
}

fn print_verdicts(count: usize, solvable: usize, rust: Time, unchanged: Time, ours: Time) {
    let n = count as f64;
    println!("  {} of {} solvable; boards a second: rust's functions in the loop {:.0}, is_solvable {:.0}, ours {:.0}", solvable, count, n / rust.all, n / unchanged.all, n / ours.all);
    println!("  ratio to the loop {:.2}, to is_solvable {:.2}; slowest board: loop {:.0} us, is_solvable {:.0} us, ours {:.0} us",
        rust.all / ours.all, unchanged.all / ours.all, rust.slowest * 1e6, unchanged.slowest * 1e6, ours.slowest * 1e6);
}

fn verdicts(random: &mut Random, rows: usize, columns: usize, mines: usize, count: usize) {
    let all = boards(random, rows, columns, mines, count);
    println!("verdicts of {} boards of {} x {} with {} mines", count, rows, columns, mines);
    for _ in 1..=3 {
        let mut unchanged = Time::default();
        let (rust, ours) = turns("verdict", count, |k| rust_verdict(&all[k]), |k| our_verdict(&all[k]));
        let solvable = all.iter().filter(|b| timed(&mut unchanged, || is_solvable(&b.grid, b.start.0, b.start.1))).count();
        print_verdicts(count, solvable, rust, unchanged, ours);
    }
}

/// Sees that nothing is lost when the total is shown: a yes stays, and so does every open cell with its number.
fn nothing_lost(plain: &ours::Verdict, shown: &ours::Verdict) {
    assert!(plain.counts[0] <= shown.counts[0] && plain.counts[1] <= shown.counts[1], "with the total shown less is opened");
    assert!(plain.picture.iter().zip(&shown.picture).all(|(&p, &s)| p == 10 || p == s), "with the total shown a cell is lost");
}

/// Verdicts with the mine total shown beside verdicts without, ours both, on the same boards.
fn totals(random: &mut Random, rows: usize, columns: usize, mines: usize, count: usize) {
    let all = boards(random, rows, columns, mines, count);
    println!("verdicts with the mine total shown, of {} boards of {} x {} with {} mines", count, rows, columns, mines);
    for _ in 1..=3 {
        let (mut solvable, mut solvable_with) = (0, 0);
        let (plain, shown) = in_turns(count, |k| our_verdict(&all[k]), |k| our_verdict_with_total(&all[k]), |p, s| {
            nothing_lost(&p, &s);
            solvable += p.counts[0];
            solvable_with += s.counts[0];
        });
        let n = count as f64;
        println!("  {} of {} solvable, {} without the total; boards a second: {:.0}, without the total {:.0}, ratio {:.2}; slowest board: {:.0} us, without the total {:.0} us",
            solvable_with, count, solvable, n / shown.all, n / plain.all, plain.all / shown.all, shown.slowest * 1e6, plain.slowest * 1e6);
    }
}

/// The boards of a file of records, each with its start.
fn records(path: &str) -> Vec<Board> {
    let input = std::fs::read(path).expect("the file of records can be read");
    let (mut all, mut at) = (vec![], 0);
    while at + 6 <= input.len() {
        let (rows, columns) = (input[at + 2] as usize, input[at + 3] as usize);
        let bytes = input[at + 6..at + 6 + rows * columns].to_vec();
        let grid: Grid = bytes.chunks(columns).map(|row| row.iter().map(|&v| if v == 255 { -1 } else { v as i32 }).collect()).collect();
        let start = (input[at + 4] as usize, input[at + 5] as usize);
        all.push(Board { rows, columns, start, grid, bytes });
        at += 6 + rows * columns;
    }
    all
}

/// Boards one by one: the groups of the largest block that enumeration meets, values tried by our search and by a walk of the whole tree, and times.
fn hard(path: &str) {
    println!("boards of {}", path);
    for b in records(path) {
        let (r, o) = turns("verdict", 1, |_| rust_verdict(&b), |_| our_verdict(&b));
        let (mut groups, mut asked, mut walked) = (0, 0, 0);
        values::enumerations(&b.grid, b.start, |a, x, rests| {
            let block = values::Block::new(a, x, rests);
            groups = max(groups, block.groups());
            asked += block.asked();
            walked += block.walked(1 << 28);
        });
        println!("  {} x {}, largest block {} groups: values tried {} of {}; rust {:.1} ms, ours {:.3} ms, ratio {:.0}",
            b.rows, b.columns, groups, asked, walked, r.all * 1e3, o.all * 1e3, r.all / o.all);
    }
}

/// The same boards one by one with their mine total shown.
fn hard_with_total(path: &str) {
    println!("boards of {} with the mine total shown", path);
    for b in records(path) {
        let mut told = String::new();
        let (plain, shown) = in_turns(1, |_| our_verdict(&b), |_| our_verdict_with_total(&b), |p, s| {
            nothing_lost(&p, &s);
            told = format!("opened {}, without the total {}; grade {}", s.counts[1], p.counts[1], s.counts[2]);
        });
        println!("  {} x {}, {}: {:.3} ms, without the total {:.3} ms", b.rows, b.columns, told, shown.all * 1e3, plain.all * 1e3);
    }
}

/// How many positions of each size are looked for.
const EACH: usize = 40;

/// Positions of play whose largest block has so many groups: enumeration beside the Rust's own solve_enumerate. Positions are those at which a game asks for
/// it, since the other rules find nothing, or any.
fn blocks_of(random: &mut Random, wanted: &[usize], asked_for: bool) {
    let (rows, columns, mines) = (16, 30, 99);
    let which = if asked_for { "at which the other rules find nothing" } else { "before any pass" };
    println!("enumeration at played positions of {} x {} with {} mines {}, by the groups of the largest block", rows, columns, mines, which);
    let mut found: Vec<Vec<Grid>> = vec![vec![]; wanted.len()];
    for _ in 0..20000 {
        let Some(b) = board(random, rows, columns, mines) else { continue };
        let positions = played(&b);
        let first = if asked_for { positions.len() - 1 } else { 0 };
        for g in positions.into_iter().skip(first) {
            let (a, x, rests, _, _) = refresh_matrixs(&g);
            let largest = (0..x.len()).map(|i| values::Block::new(&a[i], &x[i], &rests[i]).groups()).max().unwrap_or(0);
            if let Some(k) = wanted.iter().position(|&w| w == largest) {
                if found[k].len() < EACH {
                    found[k].push(g);
                }
            }
        }
        if found.iter().all(|f| f.len() == EACH) {
            break;
        }
    }
    for (k, positions) in found.iter().enumerate() {
        let bytes: Vec<Vec<u8>> = positions.iter().map(bytes_of).collect();
        let unchanged = |g: &Grid| {
            let (a, x, rests, _, _) = refresh_matrixs(g);
            solve_enumerate(&a, &x, &rests).0.len() as u64
        };
        let n = positions.len();
        let rounds = 20;
        if n == 0 {
            println!("  {} groups: no position in 20,000 games", wanted[k]);
            continue;
        }
        let (rust, our) = turns("enumerate", rounds * n, |i| unchanged(&positions[i % n]), |i| ours::rule(ours::lihvompa_enumerate, rows, columns, &bytes[i % n])[0]);
        let (asked, walked) = positions.iter().map(values_tried).fold((0, 0), |sum, v| (sum.0 + v.0, sum.1 + v.1));
        let each = 1e3 / (rounds * n) as f64;
        println!("  {} groups, {} positions: values tried {} of {} in all; a position: rust {:.3} ms, ours {:.3} ms, ratio {:.2}",
            wanted[k], n, asked, walked, rust.all * each, our.all * each, rust.all / our.all);
    }
}

/// Values tried at a position by our search, and by a walk of the whole trees.
fn values_tried(g: &Grid) -> (u64, u64) {
    let (a, x, rests, _, _) = refresh_matrixs(g);
    let blocks = (0..x.len()).map(|i| values::Block::new(&a[i], &x[i], &rests[i]));
    blocks.fold((0, 0), |sum, b| (sum.0 + b.asked(), sum.1 + b.walked(1 << 28)))
}

fn run() {
    let mut random = Random(20261115);
    rules(&mut random, 16, 30, 99, 300);
    for (rows, columns, mines) in [(16, 30, 99), (8, 8, 10), (32, 32, 200)] {
        patterns(&mut random, rows, columns, mines, 2000);
    }
    for (rows, columns, mines, count) in [(8, 8, 10, 10000), (16, 16, 40, 3000), (16, 30, 99, 2000)] {
        verdicts(&mut random, rows, columns, mines, count);
    }
    println!("growth, a fifth of the cells mines");
    for side in [8, 12, 16, 20, 24, 28, 32] {
        verdicts(&mut random, side, side, side * side / 5, 400);
    }
    blocks_of(&mut random, &[20, 30, 40, 53], true);
    blocks_of(&mut random, &[20, 30, 40, 53], false);
    totals(&mut random, 16, 30, 99, 2000);
    println!("growth with the mine total shown, a fifth of the cells mines");
    for side in [8, 12, 16, 20, 24, 28, 32] {
        totals(&mut random, side, side, side * side / 5, 400);
    }
    // last, so that the calls before keep their boards
    let kinds = [(8, 8, 10), (16, 16, 40), (16, 30, 99), (32, 32, 205), (32, 32, 40), (32, 32, 0), (8, 8, 0), (2, 2, 0), (1, 32, 3), (32, 1, 3)];
    for (rows, columns, mines) in kinds {
        bbbvs(&format!("of {} x {} with {} mines", rows, columns, mines), &boards(&mut random, rows, columns, mines, 2000));
    }
    bbbvs("of all sizes and densities", &(0..20000).map(|_| any_board(&mut random)).collect::<Vec<_>>());
    if let Some(path) = std::env::args().nth(1) {
        hard(&path);
        hard_with_total(&path);
    }
}

fn main() {
    // the Rust's recursion over the groups of a block may be deep
    std::thread::Builder::new().stack_size(256 << 20).spawn(run).unwrap().join().unwrap();
}
