//! Hall files read into a list: entries, refusals, and their order.

use second::*;

/// A hall file: columns, rows, scale, count, floor numbers, costs.
fn file(measures: [u8; 3], entries: &[(u16, u8)]) -> Vec<u8> {
    let mut bytes = measures.to_vec();
    bytes.extend((entries.len() as u16).to_le_bytes());
    bytes.extend(entries.iter().flat_map(|(number, _)| number.to_le_bytes()));
    bytes.extend(entries.iter().map(|(_, cost)| cost));
    bytes
}

/// A file of one sector.
fn small(entries: &[(u16, u8)]) -> Vec<u8> {
    file([1, 1, 1], entries)
}

/// A file of 100 sectors that names these cells.
fn large(cells: impl IntoIterator<Item = u16>) -> Vec<u8> {
    let entries: Vec<(u16, u8)> = cells.into_iter().map(|cell| (cell, cell as u8)).collect();
    file([10, 10, 1], &entries)
}

/// The number of a file that is refused; the list stays and the other values are 0.
fn refused(file: &[u8], length: usize) -> u8 {
    let mut base = vec![7; length];
    let answer = read_file(file, &mut base);
    assert_eq!(base, vec![7; length]);
    assert_eq!((answer.columns, answer.rows, answer.scale), (0, 0, 0));
    answer.number
}

/// The list that an accepted file fills.
fn filled(file: &[u8], length: usize) -> Vec<u8> {
    let mut base = vec![7; length];
    let answer = FileAnswer {
        number: 0,
        columns: file[0],
        rows: file[1],
        scale: file[2],
    };
    assert_eq!(read_file(file, &mut base), answer);
    base
}

#[test]
fn refusals_in_order() {
    assert_eq!(refused(&[0, 0, 0, 0], 0), 10);
    assert_eq!(refused(&[11, 1, 0, 255, 255], 0), 11);
    assert_eq!(refused(&[1, 1, 10, 255, 255], 0), 12);
    assert_eq!(refused(&[1, 1, 1, 0x11, 0x27], 0), 13);
    assert_eq!(refused(&[1, 1, 1, 0x10, 0x27], 0), 14);
    assert_eq!(refused(&small(&[(100, 5)]), 0), 15);
    assert_eq!(refused(&small(&[(100, 5), (5, 1)]), 100), 15);
    assert_eq!(refused(&small(&[]), 99), 16);
    assert_eq!(refused(&small(&[]), 200), 16);
}

#[test]
fn numbers_come_first_and_in_any_order() {
    let mut expected = [1; 100];
    expected[3] = 30;
    expected[4] = 40;
    expected[99] = 0;
    let entries = [(3, 30), (4, 40), (5, 1), (99, 0)];
    for [a, b, c, d] in [[0, 1, 2, 3], [3, 2, 1, 0], [2, 0, 3, 1]] {
        let bytes = file([1, 1, 9], &[entries[a], entries[b], entries[c], entries[d]]);
        assert_eq!(filled(&bytes, 100), expected);
    }
}

#[test]
fn a_floor_number_twice_is_28() {
    // Equal costs are no excuse.
    assert_eq!(refused(&[1, 1, 1, 2, 0, 7, 0, 7, 0, 5, 5], 100), 28);
    assert_eq!(refused(&small(&[(7, 5), (7, 6)]), 100), 28);
    assert_eq!(refused(&small(&[(7, 5), (9, 5), (8, 5), (7, 6)]), 100), 28);
    assert_eq!(refused(&small(&[(9, 5), (7, 5), (7, 5)]), 100), 28);
    assert_eq!(refused(&small(&[(7, 5), (7, 6), (7, 5)]), 100), 28);
    // An entry with cost 1 is an entry.
    assert_eq!(refused(&small(&[(7, 1), (7, 255)]), 100), 28);
    assert_eq!(refused(&small(&[(7, 1), (7, 1)]), 100), 28);
}

#[test]
fn numbers_that_only_look_alike_are_accepted() {
    let base = filled(&file([3, 1, 1], &[(7, 2), (107, 3), (263, 4), (8, 2)]), 300);
    assert_eq!([base[7], base[107], base[263], base[8]], [2, 3, 4, 2]);
}

#[test]
fn ten_thousand_entries() {
    let all = filled(&large((0..10_000).rev()), 10_000);
    assert!((0..10_000).all(|cell| all[cell] == cell as u8));
    assert_eq!(refused(&large((0..9_999).chain([0])), 10_000), 28);
    assert_eq!(refused(&large((0..9_999).chain([9_998])), 10_000), 28);
    assert_eq!(refused(&large([0].into_iter().chain(0..9_999)), 10_000), 28);
    assert_eq!(refused(&large((0..5_000).chain(4_999..9_999)), 10_000), 28);
}

#[test]
fn a_repeat_comes_after_13_14_and_15() {
    assert_eq!(refused(&large((0..10_000).chain([0])), 10_000), 13);
    let twice = small(&[(7, 5), (7, 6)]);
    assert_eq!(refused(&twice[..twice.len() - 1], 100), 14);
    assert_eq!(refused(&[&twice[..], &[0]].concat(), 100), 14);
    // 15 looks at every entry before 28 is asked.
    let words = [1, 1, 1, 3, 0, 0, 0, 0, 0, 0x64, 0, 1, 1, 1];
    assert_eq!(refused(&words, 100), 15);
    assert_eq!(refused(&small(&[(100, 1), (0, 1), (0, 1)]), 100), 15);
    assert_eq!(refused(&small(&[(100, 1), (100, 1)]), 100), 15);
}

#[test]
fn a_repeat_comes_before_16() {
    for length in [0, 99, 101] {
        assert_eq!(refused(&small(&[(7, 5), (7, 6)]), length), 28);
    }
    assert_eq!(refused(&small(&[(7, 5), (8, 6)]), 99), 16);
}
