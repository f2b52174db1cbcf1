//! Which bit is whose.

use second::packed::{has_spare_bit, length, ones, pack, unpack};

/// Marks of which just these are 1.
fn marks(cells: usize, marked: &[usize]) -> Vec<u8> {
    (0..cells)
        .map(|index| u8::from(marked.contains(&index)))
        .collect()
}

#[test]
fn cells_in_their_bits() {
    for (cells, marked, packed) in [
        (0, &[][..], &[][..]),
        (1, &[], &[0]),
        (1, &[0], &[0x01]),
        (7, &[6], &[0x40]),
        (7, &[0, 1, 2, 3, 4, 5, 6], &[0x7F]),
        (8, &[7], &[0x80]),
        (9, &[7], &[0x80, 0x00]),
        (9, &[8], &[0x00, 0x01]),
        (16, &[0, 7, 8, 15], &[0x81, 0x81]),
        (16, &[1, 2, 10], &[0x06, 0x04]),
        (17, &[15, 16], &[0x00, 0x80, 0x01]),
    ] {
        let bytes = marks(cells, marked);
        assert_eq!(pack(&bytes), packed);
        assert_eq!(unpack(packed, cells), bytes);
        assert_eq!(ones(packed), marked.len());
        assert!(!has_spare_bit(packed, cells));
    }
}

#[test]
fn lengths_are_rounded_up() {
    let lengths = [0, 1, 7, 8, 9, 15, 16, 17, 24, 25, 64, 65].map(length);
    assert_eq!(lengths, [0, 1, 1, 1, 2, 2, 2, 3, 3, 4, 8, 9]);
}

/// They are no marks, but ones.
#[test]
fn spare_bits() {
    for (cells, packed, spare, set) in [
        (1, &[0x02][..], true, 1),
        (1, &[0x80], true, 1),
        (7, &[0x80], true, 1),
        (7, &[0xFF], true, 8),
        (8, &[0xFF], false, 8),
        (9, &[0xFF, 0x01], false, 9),
        (9, &[0x00, 0x02], true, 1),
        (9, &[0x00, 0x81], true, 2),
        (15, &[0xFF, 0x7F], false, 15),
        (15, &[0x00, 0x80], true, 1),
    ] {
        assert_eq!(has_spare_bit(packed, cells), spare, "{cells} {packed:?}");
        assert_eq!(ones(packed), set);
    }
    assert_eq!(unpack(&[0xFE], 1), [0]);
    assert_eq!(unpack(&[0x00, 0xFE], 9), [0; 9]);
}

/// Every mark of every small window comes back.
#[test]
fn all_marks_of_small_windows() {
    for cells in 0..=11 {
        for number in 0u32..1 << cells {
            let bytes: Vec<u8> = (0..cells).map(|i| (number >> i & 1) as u8).collect();
            let packed = pack(&bytes);
            assert_eq!(packed, number.to_le_bytes()[..length(cells)]);
            assert_eq!(unpack(&packed, cells), bytes);
            assert!(!has_spare_bit(&packed, cells));
        }
    }
}
