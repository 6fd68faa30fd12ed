//! The declarations of include/hall.h. That they fit the library, the tests ask it; c/header.cpp holds the header to the
//! same sizes and places.

use std::mem::offset_of;

/// What plan and read file answer; a refusal has no measures.
#[repr(C)]
#[derive(Clone, Copy, PartialEq, Eq, Debug)]
pub struct MeasuresAnswer {
    pub number: u8,
    pub columns: u8,
    pub rows: u8,
    pub scale: u8,
}

const _: () = assert!(size_of::<MeasuresAnswer>() == 4);
const _: () = assert!(offset_of!(MeasuresAnswer, columns) == 1);
const _: () = assert!(offset_of!(MeasuresAnswer, rows) == 2);
const _: () = assert!(offset_of!(MeasuresAnswer, scale) == 3);

/// What route answers; a refusal and "none" have 0 steps.
#[repr(C)]
#[derive(Clone, Copy, PartialEq, Eq, Debug)]
pub struct RouteAnswer {
    pub number: u8,
    pub steps: u32,
    pub leg: u32,
    pub run: u32,
}

const _: () = assert!(size_of::<RouteAnswer>() == 16);
const _: () = assert!(offset_of!(RouteAnswer, steps) == 4);
const _: () = assert!(offset_of!(RouteAnswer, leg) == 8);
const _: () = assert!(offset_of!(RouteAnswer, run) == 12);

/// What windows answers; a refusal has count 0.
#[repr(C)]
#[derive(Clone, Copy, PartialEq, Eq, Debug)]
pub struct WindowsAnswer {
    pub number: u8,
    pub count: u8,
}

const _: () = assert!(size_of::<WindowsAnswer>() == 2);
const _: () = assert!(offset_of!(WindowsAnswer, count) == 1);

/// What write file answers; a refusal has length 0.
#[repr(C)]
#[derive(Clone, Copy, PartialEq, Eq, Debug)]
pub struct FileAnswer {
    pub number: u8,
    pub length: u32,
}

const _: () = assert!(size_of::<FileAnswer>() == 8);
const _: () = assert!(offset_of!(FileAnswer, length) == 4);

// A lent list is two arguments: where it begins, and how many bytes it has.
unsafe extern "C" {
    pub safe fn hall_version() -> u32;
    pub safe fn hall_plan(size_x: f32, size_y: f32, unit: f32, radius: f32) -> MeasuresAnswer;
    pub fn hall_read_file(
        file: *const u8,
        file_length: usize,
        base: *mut u8,
        base_length: usize,
    ) -> MeasuresAnswer;
    pub fn hall_build(
        columns: u8,
        rows: u8,
        scale: u8,
        base: *const u8,
        base_length: usize,
        store: *mut u8,
        store_length: usize,
    ) -> u8;
    pub fn hall_check_store(store: *const u8, store_length: usize) -> u8;
    pub fn hall_change(store: *mut u8, store_length: usize, floor_number: usize, cost: u8) -> u8;
    pub fn hall_route(
        store: *const u8,
        store_length: usize,
        source: usize,
        goal: usize,
        list: *mut u8,
        list_length: usize,
    ) -> RouteAnswer;
    pub fn hall_windows(
        store: *const u8,
        store_length: usize,
        sector: usize,
        list: *mut u8,
        list_length: usize,
    ) -> WindowsAnswer;
    pub fn hall_write_file(
        store: *const u8,
        store_length: usize,
        output: *mut u8,
        output_length: usize,
    ) -> FileAnswer;
}
