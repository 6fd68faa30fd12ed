//! Floors written back as hall files: their bytes, the output around them, refusals.

use second::*;

/// What the output holds before the call.
const OLD: u8 = 0xa5;

/// A store of these measures and base costs; scaled costs and marks are a build's.
fn store_of([columns, rows, scale]: [u8; 3], base: &[u8]) -> Vec<u8> {
    let mut store = vec![0; 4 + 208 * base.len() / 100];
    assert_eq!(build(columns, rows, scale, base, &mut store), 0);
    store
}

/// Base costs of 1 but for these cells.
fn base(sectors: usize, costs: &[(usize, u8)]) -> Vec<u8> {
    let mut base = vec![1; 100 * sectors];
    for &(number, cost) in costs {
        base[number] = cost;
    }
    base
}

/// The file that an output with this many bytes to spare is given; the spare ones stay.
fn file_with(store: &[u8], length: usize, spare: usize) -> Vec<u8> {
    let mut output = vec![OLD; length + spare];
    let answer = WrittenAnswer {
        number: 0,
        length: length as u32,
    };
    assert_eq!(write_file(store, &mut output), answer);
    assert_eq!(output.split_off(length), vec![OLD; spare]);
    output
}

/// The number of a refused write; the output stays and the length is 0.
fn refused(store: &[u8], room: usize) -> u8 {
    let mut output = vec![OLD; room];
    let answer = write_file(store, &mut output);
    assert_eq!(output, vec![OLD; room]);
    assert_eq!(answer.length, 0);
    answer.number
}

#[test]
fn numbers_ascend_and_costs_follow_all_of_them() {
    let costs = [(0, 0), (299, 2), (7, 254), (258, 255), (8, 1)];
    let store = store_of([3, 1, 9], &base(3, &costs));
    let file = [3, 1, 9, 4, 0, 0, 0, 7, 0, 2, 1, 43, 1, 0, 254, 255, 2];
    for spare in [0, 1, 40_000] {
        assert_eq!(file_with(&store, file.len(), spare), file);
    }
}

#[test]
fn the_smallest_and_the_largest_file() {
    let store = store_of([2, 3, 1], &base(6, &[]));
    assert_eq!(file_with(&store, 5, 3), [2, 3, 1, 0, 0]);
    let full = file_with(&store_of([10, 10, 1], &[255; 10_000]), 30_005, 0);
    assert_eq!(full[..7], [10, 10, 1, 0x10, 0x27, 0, 0]);
    assert_eq!(full[20_003..20_005], [0x0f, 0x27]);
    assert_eq!(full[20_005..], [255; 10_000]);
}

#[test]
fn a_changed_floor_goes_home() {
    let mut store = store_of([2, 1, 1], &base(2, &[(5, 255)]));
    assert_eq!(change(&mut store, 105, 9), 0);
    assert_eq!(change(&mut store, 5, 1), 0);
    assert_eq!(file_with(&store, 8, 2), [2, 1, 1, 1, 0, 105, 0, 9]);
}

#[test]
fn scaled_costs_and_marks_have_no_part() {
    // Scaling closes 40, 50 and 60; none of them is in the file.
    let mut store = store_of([1, 2, 2], &base(2, &[(51, 255)]));
    let file = [1, 2, 2, 1, 0, 51, 0, 255];
    assert_eq!(file_with(&store, 8, 1), file);
    store[204..404].fill(77);
    store[404..].fill(0);
    assert_eq!(file_with(&store, 8, 1), file);
}

#[test]
fn what_is_read_back_is_what_was_written() {
    let costs: Vec<u8> = (0..600).map(|number| (number % 7) as u8).collect();
    for measures in [[2, 3, 1], [3, 2, 1], [6, 1, 8]] {
        let count = costs.iter().filter(|&&cost| cost != 1).count();
        let file = file_with(&store_of(measures, &costs), 5 + 3 * count, 0);
        let mut list = vec![OLD; 600];
        let answer = read_file(&file, &mut list);
        assert_eq!(answer.number, 0);
        assert_eq!([answer.columns, answer.rows, answer.scale], measures);
        assert_eq!(list, costs);
    }
}

#[test]
fn an_output_that_is_too_short_is_29() {
    let store = store_of([1, 1, 1], &base(1, &[(5, 255)]));
    for room in [0, 1, 4, 5, 7] {
        assert_eq!(refused(&store, room), 29);
    }
    assert_eq!(refused(&store_of([1, 1, 1], &base(1, &[])), 4), 29);
}

#[test]
fn the_store_check_comes_before_29() {
    let whole = store_of([2, 1, 1], &base(2, &[(5, 255)]));
    let with = |at: usize, byte: u8| {
        let mut store = whole.clone();
        store[at] = byte;
        store
    };
    for room in [0, 7, 100] {
        assert_eq!(refused(&[], room), 18);
        assert_eq!(refused(&with(0, 11), room), 11);
        assert_eq!(refused(&with(2, 0), room), 12);
        assert_eq!(refused(&with(3, 1), room), 19);
        assert_eq!(refused(&whole[..419], room), 18);
        assert_eq!(refused(&with(404, 1), room), 20);
    }
}
