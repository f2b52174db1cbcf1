//! What is refused, in which order, and what is left then.

use super::{row, Board, BASE, NUMBERS};
use second::chips::{Buffers, Collected, CHIPS};
use second::overlay::Title;
use second::reading::Refusal;

/// Deals and collects, each from the same board.
#[track_caller]
fn assert_refused(board: &Board, deal: Refusal, collect: Refusal) {
    assert_deal_refused(board, deal);
    assert_collect_refused(board, collect);
}

/// Nothing is changed by it.
#[track_caller]
fn assert_deal_refused(board: &Board, wanted: Refusal) {
    let mut behind = board.clone();
    assert_eq!(behind.deal(), wanted, "{board:?}");
    assert_eq!(behind, *board);
}

/// Nothing is changed by it, and header and entry are empty and absent.
#[track_caller]
fn assert_collect_refused(board: &Board, refusal: Refusal) {
    let mut behind = board.clone();
    let title = Title::default();
    let wanted = Collected { refusal, title };
    assert_eq!(behind.collect(), wanted, "{board:?}");
    assert_eq!(behind, *board);
}

#[track_caller]
fn assert_accepted(board: &Board) {
    board.clone().accept_deal();
    board.clone().accept_collect();
}

/// Three cells a chip, with some marks on both sides.
fn board(k: u32) -> Board {
    match k {
        2 => Board::of(2, 3)
            .marked("xx.x.x")
            .chips_marked([".x.", "x.x"]),
        _ => Board::of(4, 3)
            .marked("xx.x.x..xxx.")
            .chips_marked([".x.", "x.x", "xx.", "..x"]),
    }
}

/// The ten buffers: those of the whole, and those of each chip.
fn buffers(board: &mut Board) -> Vec<&mut Vec<u8>> {
    let all = [&mut board.whole].into_iter().chain(&mut board.chips);
    all.flat_map(|Buffers { memory, marks }| [memory, marks])
        .collect()
}

/// Where the whole's memory and marks stand among them.
const WHOLE_MEMORY: usize = 0;
const WHOLE_MARKS: usize = 1;

#[test]
fn row_21_for_every_number_of_chips_but_2_and_4() {
    let numbers = (0..=20).chain([0x102, 0x104, 0x1_0002, 0x1_0004, 0x8000_0002, u32::MAX]);
    for k in numbers.filter(|k| !NUMBERS.contains(k)) {
        for mut board in NUMBERS.map(board) {
            for base in [0, BASE, k, k.wrapping_mul(4)] {
                board = Board { k, base, ..board };
                assert_refused(&board, row(21, 0), row(21, 0));
            }
        }
        let mut empty = Board::of(2, 0);
        empty.k = k;
        assert_refused(&empty, row(21, 0), row(21, 0));
    }
}

/// Even if as many chips are lent, with just their lengths.
#[test]
fn row_21_for_one_chip_and_three() {
    let mut one = Board::of(2, 3);
    (one.k, one.chips[0], one.chips[1]) = (1, one.whole.clone(), Buffers::default());
    assert_refused(&one, row(21, 0), row(21, 0));
    let mut three = Board::of(4, 3).at(0);
    (three.k, three.chips[3]) = (3, Buffers::default());
    three.whole.memory.truncate(9);
    three.whole.marks.truncate(9);
    assert_refused(&three, row(21, 0), row(21, 0));
}

#[test]
fn row_21_for_a_base_that_is_no_multiple() {
    for k in NUMBERS {
        for base in [0, BASE, 0x1_0000, u32::MAX - 15] {
            assert_accepted(&board(k).at(base));
            assert_accepted(&Board::of(k, 0).at(base));
            for rest in 1..k {
                let refused = board(k).at(base + rest);
                assert_refused(&refused, row(21, 0), row(21, 0));
                let refused = Board::of(k, 0).at(base + rest);
                assert_refused(&refused, row(21, 0), row(21, 0));
            }
        }
    }
    // Two chips divide what four do not.
    assert_accepted(&board(2).at(BASE + 2));
}

/// Whether the marks are as many or not.
#[test]
fn row_21_for_a_length_that_is_no_multiple() {
    for k in NUMBERS {
        for length in (0..=4 * k as usize).filter(|length| length % k as usize != 0) {
            let mut board = board(k);
            board.whole.memory.resize(length, 0);
            assert_refused(&board, row(21, 0), row(21, 0));
            board.whole.marks.resize(length, 1);
            assert_refused(&board, row(21, 0), row(21, 0));
            for chip in &mut board.chips[..k as usize] {
                chip.memory.resize(length / k as usize, 0);
                chip.marks.resize(length / k as usize, 1);
            }
            assert_refused(&board, row(21, 0), row(21, 0));
        }
    }
}

/// There are three cells a chip; so many of each are below 2^32.
#[test]
fn row_1_when_the_window_is_too_long() {
    for k in NUMBERS {
        for (below, refused) in [(4, false), (3, false), (2, true), (1, true)] {
            let board = board(k).at((below * k).wrapping_neg());
            if refused {
                assert_refused(&board, row(1, 0), row(1, 0));
            } else {
                assert_accepted(&board);
            }
        }
    }
}

/// Each of the ten lengths by itself. Another length of the whole's memory is no
/// multiple, unless it differs by k.
#[test]
fn row_1_when_one_length_differs() {
    for k in NUMBERS {
        for index in 0..2 * (CHIPS + 1) {
            for more in [-3, -2, -1, 1, 2, 3, 4] {
                let mut refused = board(k);
                let buffer = &mut buffers(&mut refused)[index];
                let Some(length) = buffer.len().checked_add_signed(more) else {
                    continue;
                };
                buffer.resize(length, 1);
                let multiple = index != WHOLE_MEMORY || length.is_multiple_of(k as usize);
                let number = if multiple { 1 } else { 21 };
                assert_refused(&refused, row(number, 0), row(number, 0));
            }
        }
    }
}

#[test]
fn row_1_when_two_lengths_differ() {
    for k in NUMBERS {
        for one in 1..2 * (CHIPS + 1) {
            for other in one + 1..2 * (CHIPS + 1) {
                let mut refused = board(k);
                buffers(&mut refused)[one].push(1);
                buffers(&mut refused)[other].push(1);
                assert_refused(&refused, row(1, 0), row(1, 0));
            }
        }
    }
}

/// The whole has more cells, or fewer, and its marks as many.
#[test]
fn row_1_when_the_whole_has_other_cells() {
    for k in NUMBERS {
        for length in [0, 1, 2, 4].map(|cells| cells * k as usize) {
            let mut refused = board(k);
            refused.whole.memory.resize(length, 0);
            refused.whole.marks.resize(length, 1);
            assert_refused(&refused, row(1, 0), row(1, 0));
        }
    }
}

#[test]
fn row_1_for_a_third_and_a_fourth_chip_of_two() {
    let used = board(2).chips[0].clone();
    for unused in [2, 3] {
        let mut refused = board(2);
        refused.chips[unused] = used.clone();
        assert_refused(&refused, row(1, 0), row(1, 0));
        refused.chips[unused].memory.clear();
        assert_refused(&refused, row(1, 0), row(1, 0));
        refused.chips[unused].memory = vec![0xC0];
        refused.chips[unused].marks.clear();
        assert_refused(&refused, row(1, 0), row(1, 0));
        refused.chips[unused].memory.clear();
        assert_accepted(&refused);
        let mut refused = Board::of(2, 0);
        refused.chips[unused].marks.push(0);
        assert_refused(&refused, row(1, 0), row(1, 0));
    }
}

/// The buffers of two chips are not those of four, nor the other way around.
#[test]
fn row_1_for_the_other_number_of_chips() {
    let mut two = Board::of(2, 4);
    two.k = 4;
    assert_refused(&two, row(1, 0), row(1, 0));
    let mut four = Board::of(4, 2);
    four.k = 2;
    assert_refused(&four, row(1, 0), row(1, 0));
}

/// Dealing asks for those of the whole, collecting for those of the chips.
#[test]
fn row_16_for_every_mark_but_0_and_1() {
    for mark in 2..=255 {
        for k in NUMBERS {
            for index in 0..3 * k as usize {
                let mut refused = board(k);
                refused.whole.marks[index] = mark;
                assert_deal_refused(&refused, row(16, index));
                refused.clone().accept_collect();
                let mut refused = board(k);
                let (chip, at) = (index % k as usize, index / k as usize);
                refused.chips[chip].marks[at] = mark;
                assert_collect_refused(&refused, row(16, at));
                refused.clone().accept_deal();
            }
        }
    }
}

/// The lowest index of the whole, whichever chip it goes to.
#[test]
fn row_16_takes_the_lowest_index_of_the_whole() {
    for (drawn, place) in [
        ("?xxxx?", 0),
        ("x?x?xx", 1),
        ("xxx??x", 3),
        ("x..x?.", 4),
        ("xxxxx?", 5),
        ("??????", 0),
    ] {
        assert_deal_refused(&board(2).marked(drawn), row(16, place));
    }
    for (drawn, place) in [("xxx?????????", 3), ("xxxxxx?.??xx", 6)] {
        assert_deal_refused(&board(4).marked(drawn), row(16, place));
    }
}

/// The index in its own marks.
#[test]
fn row_16_takes_the_lowest_chip_first() {
    for (drawn, place) in [
        (["xx?", "?xx"], 2),
        (["x?x", "xx?"], 1),
        (["x?x", "x?x"], 1),
        (["...", "x.?"], 2),
        (["?x?", "xxx"], 0),
    ] {
        assert_collect_refused(&board(2).chips_marked(drawn), row(16, place));
    }
    for (drawn, place) in [
        (["xxx", "xx?", "x?x", "?xx"], 2),
        (["xxx", "xxx", "x?x", "?xx"], 1),
        (["xxx", "xxx", "xxx", "?x?"], 0),
        (["xx?", "...", "...", "?.."], 2),
    ] {
        assert_collect_refused(&board(4).chips_marked(drawn), row(16, place));
    }
}

/// Two rows apply, or three, and the first of 21, 1 and 16 is given.
#[test]
fn rows_in_order() {
    let misplaced = |mut board: Board| {
        board.base += 1;
        board
    };
    let longer = |mut board: Board| {
        board.whole.memory.push(0);
        board
    };
    let numbered = |board: Board| Board { k: 3, ..board };
    let unlike = |mut board: Board| {
        board.chips[1].memory.pop();
        board
    };
    let fewer_marks = |mut board: Board| {
        buffers(&mut board)[WHOLE_MARKS].pop();
        board
    };
    let past = |board: Board| {
        let base = board.k.wrapping_neg();
        board.at(base)
    };
    let bad = |mut board: Board| {
        board.whole.marks[1] = 2;
        board.chips[1].marks[0] = 2;
        board
    };
    for k in NUMBERS {
        assert_refused(&bad(board(k)), row(16, 1), row(16, 0));
        let apply_21: [&dyn Fn(Board) -> Board; 3] = [&misplaced, &longer, &numbered];
        let apply_1: [&dyn Fn(Board) -> Board; 3] = [&unlike, &fewer_marks, &past];
        for first in apply_21 {
            assert_refused(&first(bad(board(k))), row(21, 0), row(21, 0));
            for second in apply_1 {
                let both = first(second(board(k)));
                assert_refused(&both, row(21, 0), row(21, 0));
                let all = first(second(bad(board(k))));
                assert_refused(&all, row(21, 0), row(21, 0));
            }
        }
        for second in apply_1 {
            assert_refused(&second(board(k)), row(1, 0), row(1, 0));
            assert_refused(&second(bad(board(k))), row(1, 0), row(1, 0));
        }
    }
}

/// A call behind a refused one goes by what stood before.
#[test]
fn refused_calls_change_nothing() {
    for k in NUMBERS {
        let mut calls = board(k);
        calls.whole.marks[4] = 9;
        assert_eq!(calls.deal(), row(16, 4));
        calls.whole.marks[4] = 0;
        calls.chips[1].marks[2] = 9;
        assert_eq!(calls.collect().refusal, row(16, 2));
        calls.chips[1].marks[2] = 1;
        assert_eq!(calls, board(k));
        calls.accept_collect();
        let mut wanted = board(k);
        wanted.accept_collect();
        assert_eq!(calls, wanted);
    }
}
