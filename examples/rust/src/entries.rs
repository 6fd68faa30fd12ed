//! Entries of the lists that route and windows fill.

use std::fmt;
use std::slice;

const SIDES: [char; 4] = ['N', 'E', 'S', 'W'];

/// The side of a step without window.
pub const NO_WINDOW: u8 = 4;

/// An entry whose fields are all bytes.
///
/// # Safety
///
/// Any bytes, as many as the type has, are a value of it, and it has no others.
pub unsafe trait Entry {}

// SAFETY: both are `repr(C)`, and each of their fields is a `u8`.
unsafe impl Entry for Window {}
unsafe impl Entry for Step {}

/// A list as the bytes that a call is lent.
pub fn lent<E: Entry>(list: &mut [E]) -> &mut [u8] {
    // SAFETY: it is the memory of the list, borrowed as long, and whatever is written there are entries.
    unsafe { slice::from_raw_parts_mut(list.as_mut_ptr().cast(), size_of_val(list)) }
}

/// A window of a sector: indices of its first and last cell, and its side, 0 to 3 for N, E, S, W.
#[repr(C)]
#[derive(Clone, Copy, PartialEq, Eq, Debug, Default)]
pub struct Window {
    pub first: u8,
    pub last: u8,
    pub side: u8,
}

const _: () = assert!(size_of::<Window>() == 3);

impl fmt::Display for Window {
    fn fmt(&self, out: &mut fmt::Formatter) -> fmt::Result {
        let side = SIDES.get(usize::from(self.side)).unwrap_or(&'?');
        write!(out, "{side}{}-{}", self.first, self.last)
    }
}

/// A step of a route: a sector, the index of its goal there, and a window or none.
#[repr(C)]
#[derive(Clone, Copy, PartialEq, Eq, Debug, Default)]
pub struct Step {
    pub column: u8,
    pub row: u8,
    pub goal: u8,
    /// [`NO_WINDOW`] in the last step; first and last are 0 then.
    pub side: u8,
    pub first: u8,
    pub last: u8,
}

const _: () = assert!(size_of::<Step>() == 6);

impl Step {
    pub fn window(&self) -> Option<Window> {
        let window = Window {
            first: self.first,
            last: self.last,
            side: self.side,
        };
        (self.side != NO_WINDOW).then_some(window)
    }
}

/// As the program `hallroute` prints it.
impl fmt::Display for Step {
    fn fmt(&self, out: &mut fmt::Formatter) -> fmt::Result {
        write!(out, "{},{}:{}", self.column, self.row, self.goal)?;
        match self.window() {
            Some(window) => write!(out, "{window}"),
            None => write!(out, "-"),
        }
    }
}
