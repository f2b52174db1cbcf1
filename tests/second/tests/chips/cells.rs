//! Where each cell goes, and what stays.

use super::{all_marks, marks, scattered, Board, BASE, NUMBERS};

/// Memory and marks of each chip behind a deal.
#[track_caller]
fn assert_dealt<const K: usize>(mut board: Board, wanted: [(&[u8], &str); K]) {
    board.accept_deal();
    for (chip, (memory, drawn)) in board.chips.iter().zip(wanted) {
        assert_eq!((&chip.memory[..], &chip.marks), (memory, &marks(drawn)));
    }
}

/// Memory and marks of the whole behind a collect.
#[track_caller]
fn assert_collected(mut board: Board, memory: &[u8], drawn: &str) {
    board.accept_collect();
    assert_eq!(
        (&board.whole.memory[..], board.whole.marks),
        (memory, marks(drawn))
    );
}

#[test]
fn cells_of_two_chips() {
    assert_dealt(
        Board::of(2, 3).marked("xxxxxx"),
        [(&[0x10, 0x12, 0x14], "xxx"), (&[0x11, 0x13, 0x15], "xxx")],
    );
    assert_collected(
        Board::of(2, 3).chips_marked(["xxx", "xxx"]),
        &[0xA0, 0xB0, 0xA1, 0xB1, 0xA2, 0xB2],
        "xxxxxx",
    );
}

#[test]
fn cells_of_four_chips() {
    assert_dealt(
        Board::of(4, 2).marked("xxxxxxxx"),
        [
            (&[0x10, 0x14], "xx"),
            (&[0x11, 0x15], "xx"),
            (&[0x12, 0x16], "xx"),
            (&[0x13, 0x17], "xx"),
        ],
    );
    assert_collected(
        Board::of(4, 2).chips_marked(["xx", "xx", "xx", "xx"]),
        &[0xA0, 0xB0, 0xC0, 0xD0, 0xA1, 0xB1, 0xC1, 0xD1],
        "xxxxxxxx",
    );
}

/// Unmarked bytes of the sender are not taken, and those of the receiver stay.
#[test]
fn unmarked_bytes_stay() {
    assert_dealt(
        Board::of(2, 3).marked("x..xx."),
        [(&[0x10, 0xA1, 0x14], "x.x"), (&[0xB0, 0x13, 0xB2], ".x.")],
    );
    assert_collected(
        Board::of(2, 3).chips_marked(["x.x", ".x."]),
        &[0xA0, 0x11, 0x12, 0xB1, 0xA2, 0x15],
        "x..xx.",
    );
}

/// Whatever they held: nothing is asked of them.
#[test]
fn receiving_marks_are_all_written() {
    let dealt = Board::of(2, 3)
        .marked("x..xx.")
        .chips_marked(["?x?", "xx?"]);
    assert_dealt(
        dealt.clone(),
        [(&[0x10, 0xA1, 0x14], "x.x"), (&[0xB0, 0x13, 0xB2], ".x.")],
    );
    assert_dealt(
        dealt.marked("......"),
        [(&[0xA0, 0xA1, 0xA2], "..."), (&[0xB0, 0xB1, 0xB2], "...")],
    );
    let collected = Board::of(2, 3)
        .marked("?x?xx?")
        .chips_marked(["x.x", ".x."]);
    assert_collected(
        collected.clone(),
        &[0xA0, 0x11, 0x12, 0xB1, 0xA2, 0x15],
        "x..xx.",
    );
    assert_collected(
        collected.chips_marked(["...", "..."]),
        &[0x10, 0x11, 0x12, 0x13, 0x14, 0x15],
        "......",
    );
}

/// The sender stays as it is.
#[test]
fn nothing_is_taken_away() {
    for k in NUMBERS {
        for marks in scattered(17 * k as usize) {
            let mut board = Board::of(k, 17);
            board.whole.marks = marks;
            let before = board.clone();
            board.accept_deal();
            assert_eq!(board.whole, before.whole);
            let before = board.clone();
            board.accept_collect();
            assert_eq!(board.chips, before.chips);
        }
    }
}

/// The cell at address A, by its address alone: chip A modulo k, at A / k.
fn assert_cell(board: &Board, before: &Board, index: usize) {
    let address = board.base as usize + index;
    let (k, base) = (board.k as usize, board.base as usize);
    let (chip, at) = (address % k, address / k - base / k);
    let wanted = match before.whole.marks[index] {
        1 => before.whole.memory[index],
        _ => before.chips[chip].memory[at],
    };
    let chip = &board.chips[chip];
    assert_eq!(chip.memory[at], wanted, "{before:?} at {index}");
    assert_eq!(chip.marks[at], before.whole.marks[index]);
}

#[test]
fn all_marks_of_small_windows() {
    for (k, cells) in [(2, 0), (2, 1), (2, 2), (2, 3), (4, 0), (4, 1), (4, 2)] {
        for marks in all_marks(k as usize * cells) {
            let mut before = Board::of(k, cells);
            before.overwrite_chips();
            before.whole.marks = marks;
            let mut board = before.clone();
            board.accept_deal();
            (0..board.whole.memory.len()).for_each(|index| assert_cell(&board, &before, index));
        }
    }
}

/// Around whole rows of sixteen cells, at bases that leave each rest by 4 and by 16
/// that they can.
#[test]
fn cells_around_whole_rows() {
    for k in NUMBERS {
        for cells in [1, 14, 15, 16, 17, 18, 31, 32, 33, 47, 48, 49, 64, 65] {
            for base in [0, k, 2 * k, 3 * k, 15 * k, 16 * k, BASE, 0x10_0000 - k] {
                for marks in scattered(k as usize * cells) {
                    let mut before = Board::of(k, cells).at(base);
                    before.overwrite_chips();
                    before.whole.marks = marks;
                    let mut board = before.clone();
                    board.accept_deal();
                    let length = board.whole.memory.len();
                    (0..length).for_each(|index| assert_cell(&board, &before, index));
                }
            }
        }
    }
}

#[test]
fn windows_at_either_end_of_the_addresses() {
    for k in NUMBERS {
        let length = 17 * k;
        for base in [0, u32::MAX - length + 1] {
            let marks = &scattered(length as usize)[0];
            let mut before = Board::of(k, 17).at(base);
            before.whole.marks.clone_from(marks);
            let mut board = before.clone();
            board.accept_deal();
            (0..length as usize).for_each(|index| assert_cell(&board, &before, index));
        }
    }
}

#[test]
fn windows_without_cells() {
    for k in NUMBERS {
        for base in [0, BASE, u32::MAX - 3] {
            let mut board = Board::of(k, 0).at(base);
            let before = board.clone();
            board.accept_deal();
            board.accept_collect();
            assert_eq!(board, before);
        }
    }
}

/// One cell of the whole and one of a chip, each by itself: just that one moves.
#[test]
fn one_cell_alone() {
    for k in NUMBERS {
        let (used, cells) = (k as usize, 33);
        for index in 0..used * cells {
            let (chip, at) = (index % used, index / used);
            let mut dealt = Board::of(k, cells);
            dealt.whole.marks[index] = 1;
            let mut wanted = dealt.clone();
            wanted.chips[chip].memory[at] = dealt.whole.memory[index];
            wanted.chips[chip].marks[at] = 1;
            dealt.accept_deal();
            assert_eq!(dealt, wanted);
            let mut collected = Board::of(k, cells);
            collected.chips[chip].marks[at] = 1;
            let mut wanted = collected.clone();
            wanted.whole.memory[index] = collected.chips[chip].memory[at];
            wanted.whole.marks[index] = 1;
            collected.accept_collect();
            assert_eq!(collected, wanted);
        }
    }
}
