//! Absent from docs/src: lines between cells, which no call of document 01 asks for.

use super::FieldCell;

pub fn walk_bresenham_shallow(_: i32, _: i32, _: i32, _: i32) -> Vec<FieldCell> {
	unimplemented!("absent from docs/src")
}

pub fn walk_bresenham_steep(_: i32, _: i32, _: i32, _: i32) -> Vec<FieldCell> {
	unimplemented!("absent from docs/src")
}
