//! Deals and collects one behind the other, and texts of chips between them.

use super::{all_marks, scattered, Board, BASE, NUMBERS};
use second::chips::Buffers;
use second::overlay::Image;
use second::reading::{load, write, Refusal};

/// The byte of each marked cell.
fn cells(buffers: &Buffers) -> Vec<Option<u8>> {
    let Buffers { memory, marks } = buffers;
    Image { memory, marks }.cells()
}

/// Boards of few cells with all marks, and of about whole rows with some.
fn boards() -> impl Iterator<Item = Board> {
    let small = [(2, 0), (2, 1), (2, 3), (4, 1), (4, 2)].into_iter();
    let small = small.flat_map(|(k, cells)| {
        all_marks(k as usize * cells).map(move |marks| (Board::of(k, cells), marks))
    });
    let large = NUMBERS.into_iter().flat_map(|k| {
        let cells = [15, 16, 17, 31, 32, 33, 48, 50].into_iter();
        cells.flat_map(move |cells| {
            scattered(k as usize * cells).map(|marks| (Board::of(k, cells), marks))
        })
    });
    small.chain(large).map(|(mut board, marks)| {
        board.whole.marks = marks;
        board
    })
}

/// Whatever the whole held in between, each addressed cell is back, and all else of
/// it stays.
#[test]
fn deal_then_collect_restores_every_addressed_cell() {
    for before in boards() {
        let mut board = before.clone();
        board.overwrite_chips();
        board.accept_deal();
        board.overwrite_whole();
        let overwritten = board.whole.clone();
        board.accept_collect();
        assert_eq!(cells(&board.whole), cells(&before.whole));
        assert_eq!(board.whole.marks, before.whole.marks);
        for (index, mark) in before.whole.marks.iter().enumerate() {
            if *mark == 0 {
                assert_eq!(board.whole.memory[index], overwritten.memory[index]);
            }
        }
    }
}

/// The same from the other side.
#[test]
fn collect_then_deal_restores_every_addressed_cell() {
    for board in boards() {
        // A deal first, so that the chips have the drawn marks.
        let mut before = board;
        before.accept_deal();
        let mut board = before.clone();
        board.overwrite_whole();
        board.accept_collect();
        board.overwrite_chips();
        let overwritten = board.chips.clone();
        board.accept_deal();
        for (chip, (wanted, overwritten)) in board
            .chips
            .iter()
            .zip(before.chips.iter().zip(&overwritten))
        {
            assert_eq!(cells(chip), cells(wanted));
            assert_eq!(chip.marks, wanted.marks);
            for (index, mark) in wanted.marks.iter().enumerate() {
                if *mark == 0 {
                    assert_eq!(chip.memory[index], overwritten.memory[index]);
                }
            }
        }
    }
}

/// A deal or a collect again changes nothing more.
#[test]
fn twice_is_as_once() {
    for mut board in boards() {
        board.overwrite_chips();
        board.accept_deal();
        let once = board.clone();
        board.accept_deal();
        board.accept_collect();
        assert_eq!(board, once);
        board.overwrite_whole();
        board.accept_collect();
        let once = board.clone();
        board.accept_collect();
        board.accept_deal();
        assert_eq!(board, once);
    }
}

/// The unmarked bytes of the sender make no difference.
#[test]
fn unmarked_bytes_are_not_sent() {
    for mut board in boards() {
        let mut other = board.clone();
        let bytes = other.whole.memory.iter_mut().zip(&board.whole.marks);
        bytes.for_each(|(byte, mark)| *byte ^= 0x55 * (1 - mark));
        board.accept_deal();
        other.accept_deal();
        assert_eq!(board.chips, other.chips);
        for (chip, other) in board.chips.iter().zip(&mut other.chips) {
            let bytes = other.memory.iter_mut().zip(&chip.marks);
            bytes.for_each(|(byte, mark)| *byte ^= 0x55 * (1 - mark));
        }
        board.overwrite_whole();
        other.whole = board.whole.clone();
        board.accept_collect();
        other.accept_collect();
        assert_eq!(board.whole, other.whole);
    }
}

/// The text of a chip, with its own base, an empty header and entry 0.
fn text(base: u32, chip: &Buffers) -> Vec<u8> {
    let mut out = vec![0; 4_096];
    let Buffers { memory, marks } = chip;
    let written = write(base, memory, marks, b"", Some(0), &mut out);
    assert_eq!(written.refusal, Refusal::default());
    out.truncate(written.length);
    out
}

#[test]
fn texts_of_chips() {
    let mut board = Board::of(2, 3).marked("xx.xx.");
    board.accept_deal();
    let texts = [0, 1].map(|chip| text(BASE / 2, &board.chips[chip]));
    let wanted = [
        "S0030000FC\nS10400821069\nS10400841463\nS5030002FA\nS9030000FC\n",
        "S0030000FC\nS1050082111354\nS5030001FB\nS9030000FC\n",
    ];
    assert_eq!(texts, wanted.map(|text| text.as_bytes().to_vec()));
}

/// Each chip is written, and loaded into other buffers; the chips collected from
/// there restore every addressed cell.
#[test]
fn texts_of_chips_bring_the_cells_back() {
    for base in [0, BASE, 0xFFF8, 0x1_0000, 0xFF_FFF8, 0xFFFF_FF00] {
        for board in boards().filter(|board| board.whole.memory.len() <= 200) {
            let mut board = board.at(base);
            let wanted = cells(&board.whole);
            board.accept_deal();
            let base = base / board.k;
            let texts = board.chips.each_ref().map(|chip| text(base, chip));
            board.overwrite_chips();
            for (chip, text) in board.chips.iter_mut().zip(&texts).take(board.k as usize) {
                let loaded = load(text, base, &mut chip.memory, &mut chip.marks);
                assert_eq!(loaded.refusal, Refusal::default());
                assert_eq!((loaded.header_len, loaded.entry), (0, Some(0)));
            }
            board.overwrite_whole();
            board.accept_collect();
            assert_eq!(cells(&board.whole), wanted);
        }
    }
}

/// Eight cells over two chips, and the same over four.
#[test]
fn two_chips_and_four_of_one_window() {
    let mut two = Board::of(2, 4).marked("xx.xx..x");
    let mut four = Board::of(4, 2).marked("xx.xx..x");
    two.accept_deal();
    four.accept_deal();
    two.overwrite_whole();
    four.overwrite_whole();
    two.accept_collect();
    four.accept_collect();
    assert_eq!(two.whole, four.whole);
    // Chip 0 of two has the cells of the chips 0 and 2 of four, in turn.
    let both = [&four.chips[0], &four.chips[2]].map(cells);
    let mut turns = both[0].iter().zip(&both[1]);
    let turns: Vec<Option<u8>> = turns.by_ref().flat_map(|(a, b)| [*a, *b]).collect();
    assert_eq!(cells(&two.chips[0]), turns);
}
