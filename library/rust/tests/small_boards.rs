//! The small boards of SPECIFICATION 12, the record example (5.4) and the refusals (3.1), and boards worked out by hand, through the safe functions.
use lihvompa::{bbbv, direct, enumerate, frontier, minus, pattern, table, verdict, verdict_total, Deduction, Frontier, Refusal, Verdict, NO_ROUND};

fn found(safe: &[u16], mines: &[u16], position: &[u8]) -> Result<Deduction, Refusal> {
    Ok(Deduction { safe: safe.to_vec(), mines: mines.to_vec(), position: position.to_vec() })
}

/// Yes or no, opened cells, grade, rounds; the picture and the cells' rounds belong to them.
fn judged(rows: usize, columns: usize, start: (usize, usize), cells: &[u8]) -> (bool, usize, usize, usize) {
    told(verdict(rows, columns, start, cells).unwrap(), columns, start, cells)
}

/// The same where the board shows its mine total.
fn judged_with_total(rows: usize, columns: usize, start: (usize, usize), cells: &[u8]) -> (bool, usize, usize, usize) {
    told(verdict_total(rows, columns, start, cells).unwrap(), columns, start, cells)
}

fn told(v: Verdict, columns: usize, start: (usize, usize), cells: &[u8]) -> (bool, usize, usize, usize) {
    assert_eq!(v.picture.len(), cells.len());
    assert_eq!(v.picture.iter().filter(|&&cell| cell <= 8).count(), v.opened);
    assert_eq!(v.opened_in.len(), cells.len());
    assert_eq!(v.opened_in[start.0 * columns + start.1], 0);
    for (&cell, &round) in v.picture.iter().zip(&v.opened_in) {
        assert!(if cell <= 8 { round as usize <= v.rounds } else { round == NO_ROUND });
    }
    (v.yes, v.opened, v.grade, v.rounds)
}

#[test]
fn case_1_direct_finds_a_mine() {
    let position = [1, 10, 10];
    assert_eq!(frontier(1, 3, &position), Ok(Frontier { blocks: 1, inside_cells: 1, known_mines: 0 }));
    assert_eq!(direct(1, 3, &position), found(&[], &[1], &[1, 11, 10]));
}

#[test]
fn case_2_direct_finds_a_safe_cell() {
    assert_eq!(direct(1, 2, &[0, 10]), found(&[1], &[], &[0, 12]));
}

#[test]
fn case_3_a_negative_remainder_is_refused() {
    let position = [11, 0, 10];
    assert_eq!(frontier(1, 3, &position), Ok(Frontier { blocks: 1, inside_cells: 0, known_mines: 1 }));
    assert_eq!(direct(1, 3, &position), Err(Refusal::Contradiction));
}

#[test]
fn case_4_no_rule_finds_a_cell() {
    let position = [10, 1, 10];
    for rule in [direct, minus, enumerate] {
        assert_eq!(rule(1, 3, &position), found(&[], &[], &position));
    }
    let t = table(1, 3, &position, 0, 1).unwrap();
    assert_eq!((t.solutions, t.groups, t.row(0)), (1, 1, &[1][..]));
}

#[test]
fn case_5_a_table_of_two_rows() {
    let t = table(1, 5, &[10, 1, 10, 1, 10], 0, 100).unwrap();
    assert_eq!((t.solutions, t.groups, t.row(0), t.row(1)), (2, 3, &[0, 1, 0][..], &[1, 0, 1][..]));
    assert_eq!(t.bytes.len(), 6);
}

#[test]
fn case_6_subtraction_finds_what_direct_does_not() {
    let position = [10, 10, 10, 1, 1, 1];
    assert_eq!(direct(2, 3, &position), found(&[], &[], &position));
    assert_eq!(minus(2, 3, &position), found(&[0, 2], &[1], &[12, 11, 12, 1, 1, 1]));
}

#[test]
fn case_7_a_table_needs_its_room() {
    let position = [10, 10, 10, 1, 1, 1];
    assert_eq!(table(2, 3, &position, 0, 3).unwrap().bytes, [0, 1, 0]);
    assert_eq!(table(2, 3, &position, 0, 2), Err(Refusal::Table));
    assert_eq!(table(2, 3, &position, 0, 0), Err(Refusal::Table));
    assert_eq!(table(2, 3, &position, 1, 3), Err(Refusal::Block));
}

#[test]
fn case_8_one_cell() {
    assert_eq!(judged(1, 1, (0, 0), &[0]), (true, 1, 0, 0));
}

#[test]
fn case_9_all_mines_but_the_start() {
    let mut board = [255; 9];
    board[0] = 3;
    assert_eq!(judged(3, 3, (0, 0), &board), (true, 1, 0, 0));
    assert_eq!(pattern(3, 3, &board), Ok(true));
}

#[test]
fn case_10_stuck_at_the_start() {
    let v = verdict(2, 3, (1, 0), &[1, 255, 1, 1, 1, 1]).unwrap();
    assert_eq!((v.yes, v.opened, v.grade, v.rounds), (false, 1, 4, 0));
    assert_eq!(v.picture, [10, 10, 10, 1, 10, 10]);
    assert_eq!(v.opened_in, [NO_ROUND, NO_ROUND, NO_ROUND, 0, NO_ROUND, NO_ROUND]);
}

#[test]
fn case_11_thirty_two_rows() {
    assert!(verdict(32, 1, (0, 0), &[0; 32]).unwrap().yes);
    assert_eq!(verdict(33, 1, (0, 0), &[0; 33]), Err(Refusal::Size));
    assert!(frontier(32, 1, &[10; 32]).is_ok());
    assert_eq!(frontier(33, 1, &[10; 33]), Err(Refusal::Size));
}

#[test]
fn the_record_example() {
    assert_eq!(judged(1, 3, (0, 2), &[255, 1, 0]), (true, 2, 0, 0));
    assert_eq!(judged(1, 3, (0, 0), &[1, 255, 1]), (false, 1, 4, 1));
    assert_eq!(verdict(0, 1, (0, 0), &[]), Err(Refusal::Size));
}

#[test]
fn boards_by_hand() {
    // the 0s open every safe cell
    assert_eq!(judged(3, 3, (2, 2), &[255, 1, 0, 1, 1, 0, 0, 0, 0]), (true, 8, 0, 0));
    // direct finds the mine, and nothing beyond it
    assert_eq!(judged(1, 5, (0, 0), &[0, 1, 255, 1, 0]), (false, 2, 4, 1));
    // the 0s of the last row open the second; there subtraction finds the rest, as in case 6
    let board = [1, 255, 1, 1, 1, 1, 0, 0, 0];
    assert_eq!(judged(3, 3, (2, 0), &board), (true, 8, 2, 1));
    assert_eq!(judged(3, 3, (2, 2), &board), (true, 8, 2, 1));
}

#[test]
fn each_cell_has_the_round_in_which_it_was_opened() {
    const NO: u16 = NO_ROUND;
    assert_eq!(NO, 65535);
    // the start and what its zeros open have round 0
    assert_eq!(verdict(1, 3, (0, 2), &[255, 1, 0]).unwrap().opened_in, [NO, 0, 0]);
    // the first pass finds mines alone and counts, so no cell has round 1
    let board = [0, 1, 1, 2, 3, 255, 255, 255, 2];
    assert_eq!(judged(3, 3, (0, 0), &board), (true, 6, 2, 3));
    assert_eq!(verdict(3, 3, (0, 0), &board).unwrap().opened_in, [0, 0, 3, 0, 0, NO, NO, NO, 2]);
    // the only pass finds a mine, and no cell has its number; a safe cell that stays closed has none
    assert_eq!(judged(1, 3, (0, 0), &[1, 255, 1]), (false, 1, 4, 1));
    assert_eq!(verdict(1, 3, (0, 0), &[1, 255, 1]).unwrap().opened_in, [0, NO, NO]);
    // the second pass opens a 0 in the last row; the last cell of that row and the one above it touch no cell that was open before, and its flood opens them
    let board = [0, 0, 1, 255, 1, 2, 2, 2, 1, 1, 255, 255, 1, 0, 0];
    assert_eq!(judged(3, 5, (0, 0), &board), (true, 12, 1, 3));
    assert_eq!(verdict(3, 5, (0, 0), &board).unwrap().opened_in, [0, 0, 0, NO, 3, 0, 0, 0, 2, 2, NO, NO, 1, 2, 2]);
}

#[test]
fn the_mine_total_finds_cells() {
    const NO: u16 = NO_ROUND;
    // the mine beside the start is the only one
    assert_eq!(judged_with_total(1, 3, (0, 0), &[1, 255, 1]), (true, 2, 5, 2));
    assert_eq!(verdict_total(1, 3, (0, 0), &[1, 255, 1]).unwrap().opened_in, [0, NO, 2]);
    // the one mine touches the start, so the cells farther away are safe
    assert_eq!(judged_with_total(1, 5, (0, 1), &[0, 1, 255, 1, 0]), (true, 4, 5, 2));
    assert_eq!(verdict_total(1, 5, (0, 1), &[0, 1, 255, 1, 0]).unwrap().opened_in, [2, 0, NO, 1, 1]);
    // the same, and their zeros open the rest
    let corner = [0, 0, 0, 0, 1, 1, 0, 1, 255];
    assert_eq!(judged_with_total(3, 3, (2, 1), &corner), (true, 8, 5, 1));
    assert_eq!(verdict_total(3, 3, (2, 1), &corner).unwrap().opened_in, [1, 1, 1, 1, 1, 1, 1, 0, NO]);
    // both mines touch the start
    assert_eq!(judged_with_total(1, 5, (0, 2), &[1, 255, 2, 255, 1]), (true, 3, 5, 2));
    assert_eq!(verdict_total(1, 5, (0, 2), &[1, 255, 2, 255, 1]).unwrap().opened_in, [2, NO, 0, NO, 2]);
    // without the total each of them is no, with the start alone open
    for (rows, columns, start, cells) in [
        (1, 3, (0, 0), &[1, 255, 1][..]),
        (1, 5, (0, 1), &[0, 1, 255, 1, 0]),
        (3, 3, (2, 1), &corner),
        (1, 5, (0, 2), &[1, 255, 2, 255, 1]),
    ] {
        let v = verdict(rows, columns, start, cells).unwrap();
        assert_eq!((v.yes, v.opened, v.grade), (false, 1, 4));
    }
}

#[test]
fn the_mine_total_does_not_save_every_board() {
    const NO: u16 = NO_ROUND;
    // it opens the far column and what follows from that, and then the mine is one of two cells
    let board = [1, 255, 1, 1, 1, 1];
    assert_eq!(judged(2, 3, (1, 0), &board), (false, 1, 4, 0));
    assert_eq!(judged_with_total(2, 3, (1, 0), &board), (false, 4, 4, 2));
    let v = verdict_total(2, 3, (1, 0), &board).unwrap();
    assert_eq!(v.picture, [1, 10, 1, 1, 10, 1]);
    assert_eq!(v.opened_in, [2, NO, 1, 0, NO, 1]);
    // the one mine is on either side of the start
    assert_eq!(judged_with_total(1, 3, (0, 1), &[255, 1, 0]), (false, 1, 4, 0));
    // one of the two mines touches the start, so the last cell is the other: a mine alone is found, which is a round, and nothing is opened
    assert_eq!(judged_with_total(1, 4, (0, 1), &[0, 1, 255, 255]), (false, 1, 4, 1));
}

#[test]
fn the_mine_total_changes_nothing_where_three_rules_are_enough() {
    for (rows, columns, start, cells) in [
        (1, 1, (0, 0), &[0][..]),
        (1, 3, (0, 2), &[255, 1, 0]),
        (3, 3, (2, 0), &[1, 255, 1, 1, 1, 1, 0, 0, 0]),
        (3, 3, (0, 0), &[0, 1, 1, 2, 3, 255, 255, 255, 2]),
        (3, 4, (0, 0), &[0, 1, 2, 2, 1, 2, 255, 255, 1, 255, 4, 255]),
    ] {
        assert!(verdict(rows, columns, start, cells).unwrap().yes);
        assert_eq!(verdict_total(rows, columns, start, cells), verdict(rows, columns, start, cells));
    }
}

#[test]
fn a_board_that_shows_its_total_is_refused_as_any_other() {
    assert_eq!(verdict_total(33, 1, (0, 0), &[0; 33]), Err(Refusal::Size));
    assert_eq!(verdict_total(1, 3, (0, 0), &[255, 1]), Err(Refusal::Length));
    assert_eq!(verdict_total(1, 3, (0, 0), &[255, 1, 10]), Err(Refusal::Cell));
    assert_eq!(verdict_total(1, 3, (0, 3), &[255, 1, 0]), Err(Refusal::Start));
    assert_eq!(verdict_total(1, 3, (255, 255), &[255, 1, 0]), Err(Refusal::Start));
    assert_eq!(verdict_total(1, 3, (0, 0), &[255, 2, 0]), Err(Refusal::Number));
    assert_eq!(verdict_total(1, 3, (0, 0), &[255, 1, 0]), Err(Refusal::StartMine));
}

#[test]
fn a_start_on_a_mine_is_refused() {
    assert_eq!(verdict(1, 1, (0, 0), &[255]), Err(Refusal::StartMine));
    assert_eq!(verdict(1, 3, (0, 0), &[255, 1, 0]), Err(Refusal::StartMine));
    // the start's cell is the one in its row and column, and not the other way round
    let board = [1, 255, 1, 1, 1, 1];
    assert_eq!(verdict(2, 3, (0, 1), &board), Err(Refusal::StartMine));
    assert_eq!(judged(2, 3, (1, 0), &board), (false, 1, 4, 0));
    // it is tested last; a start past the end of its row is off the board, though the cell of that number is a mine
    assert_eq!(verdict(33, 1, (0, 0), &[255; 33]), Err(Refusal::Size));
    assert_eq!(verdict(1, 3, (0, 0), &[255, 1]), Err(Refusal::Length));
    assert_eq!(verdict(1, 3, (0, 0), &[255, 1, 10]), Err(Refusal::Cell));
    assert_eq!(verdict(2, 3, (0, 3), &[255; 6]), Err(Refusal::Start));
    assert_eq!(verdict(1, 3, (0, 0), &[255, 2, 0]), Err(Refusal::Number));
    assert_eq!(Refusal::StartMine as u8, 13);
    assert_eq!(Refusal::StartMine.to_string(), "start on a mine");
}

#[test]
fn each_refusal_of_a_board() {
    assert_eq!(verdict(1, 3, (0, 0), &[255, 1]), Err(Refusal::Length));
    assert_eq!(verdict(1, 3, (0, 0), &[255, 1, 10]), Err(Refusal::Cell));
    assert_eq!(verdict(1, 3, (0, 3), &[255, 1, 0]), Err(Refusal::Start));
    assert_eq!(verdict(1, 3, (0, 0), &[255, 2, 0]), Err(Refusal::Number));
    assert_eq!(verdict(usize::MAX, usize::MAX, (0, 0), &[0]), Err(Refusal::Size));
}

#[test]
fn the_retired_start_is_off_every_board() {
    // it meant the first 0, which one of these boards has and the other has not
    assert_eq!(verdict(1, 3, (255, 255), &[255, 1, 0]), Err(Refusal::Start));
    assert_eq!(verdict(1, 3, (255, 255), &[1, 255, 1]), Err(Refusal::Start));
    // the first 0 written in its place is judged
    assert_eq!(judged(1, 3, (0, 2), &[255, 1, 0]), (true, 2, 0, 0));
    // size, length and cells are tested before it, numbers behind it
    assert_eq!(verdict(33, 1, (255, 255), &[0; 33]), Err(Refusal::Size));
    assert_eq!(verdict(1, 3, (255, 255), &[255, 1]), Err(Refusal::Length));
    assert_eq!(verdict(1, 3, (255, 255), &[10, 1, 0]), Err(Refusal::Cell));
    assert_eq!(verdict(1, 3, (255, 255), &[255, 2, 0]), Err(Refusal::Start));
}

#[test]
fn each_refusal_of_a_position_and_a_pattern() {
    assert_eq!(direct(1, 2, &[]), Err(Refusal::Length));
    assert_eq!(minus(1, 1, &[9]), Err(Refusal::Cell));
    assert_eq!(enumerate(1, 3, &[11, 0, 10]), Err(Refusal::Contradiction));
    assert_eq!(table(1, 3, &[10, 1, 13], 0, 9), Err(Refusal::Cell));
    assert_eq!(pattern(2, 3, &[3, 255, 255, 255, 255, 255]), Err(Refusal::Size));
    assert_eq!(pattern(3, 3, &[0; 8]), Err(Refusal::Length));
    assert_eq!(pattern(3, 3, &[0; 9]), Ok(false));
}

#[test]
fn the_3bv_counts_openings_and_lone_numbers() {
    assert_eq!(bbbv(1, 1, &[255]), Ok(0));
    assert_eq!(bbbv(32, 32, &[255; 1024]), Ok(0));
    assert_eq!(bbbv(1, 1, &[0]), Ok(1));
    assert_eq!(bbbv(32, 32, &[0; 1024]), Ok(1));
    assert_eq!(bbbv(1, 2, &[1, 255]), Ok(1));
    assert_eq!(bbbv(3, 3, &[1, 1, 1, 1, 255, 1, 1, 1, 1]), Ok(8));
    // zeros that touch at a corner are one opening
    assert_eq!(bbbv(4, 4, &[0, 0, 1, 255, 0, 0, 1, 1, 1, 1, 0, 0, 255, 1, 0, 0]), Ok(1));
    // two openings: with a mine between them, and with a number that touches both
    assert_eq!(bbbv(1, 5, &[0, 1, 255, 1, 0]), Ok(2));
    assert_eq!(bbbv(3, 3, &[0, 1, 255, 1, 2, 1, 255, 1, 0]), Ok(2));
    // an opening, and a number that no 0 touches
    assert_eq!(bbbv(5, 1, &[0, 1, 255, 2, 255]), Ok(2));
}

#[test]
fn each_refusal_of_a_3bv() {
    assert_eq!(bbbv(0, 1, &[]), Err(Refusal::Size));
    assert_eq!(bbbv(33, 1, &[0; 33]), Err(Refusal::Size));
    assert_eq!(bbbv(1, 3, &[255, 1]), Err(Refusal::Length));
    assert_eq!(bbbv(1, 3, &[255, 1, 10]), Err(Refusal::Cell));
    assert_eq!(bbbv(1, 3, &[255, 2, 0]), Err(Refusal::Number));
    // of several the lowest is told
    assert_eq!(bbbv(33, 1, &[9]), Err(Refusal::Size));
    assert_eq!(bbbv(1, 2, &[9]), Err(Refusal::Length));
    assert_eq!(bbbv(1, 2, &[1, 9]), Err(Refusal::Cell));
}

#[test]
fn calls_from_several_threads_agree() {
    let alone = verdict(2, 3, (1, 0), &[1, 255, 1, 1, 1, 1]);
    let threads: Vec<_> = (0..4).map(|_| std::thread::spawn(|| verdict(2, 3, (1, 0), &[1, 255, 1, 1, 1, 1]))).collect();
    for thread in threads {
        assert_eq!(thread.join().unwrap(), alone);
    }
}

/// The largest size, 0s with two closed cells after each: one block of 683 groups, and every closed cell is safe.
#[test]
fn a_stack_of_one_mebibyte_is_enough() {
    let position: Vec<u8> = (0..1024).map(|cell| if (cell / 32 + cell % 32) % 3 == 0 { 0 } else { 10 }).collect();
    let closed = position.iter().filter(|&&cell| cell == 10).count();
    let calls = move || {
        for rule in [direct, minus, enumerate] {
            let found = rule(32, 32, &position).unwrap();
            assert_eq!((found.safe.len(), found.mines.len()), (closed, 0));
        }
        let t = table(32, 32, &position, 0, closed).unwrap();
        assert_eq!((t.solutions, t.groups, t.row(0)), (1, closed, &vec![0; closed][..]));
        assert_eq!(judged(32, 32, (0, 0), &[0; 1024]), (true, 1024, 0, 0));
        assert_eq!(judged_with_total(32, 32, (0, 0), &[0; 1024]), (true, 1024, 0, 0));
        assert_eq!(bbbv(32, 32, &[0; 1024]), Ok(1));
    };
    std::thread::Builder::new().stack_size(1 << 20).spawn(calls).unwrap().join().unwrap();
}
