//! What the numbers mean, in the words of documents 01 and 02: include/hall.h has the same texts.

pub fn text(number: u8) -> &'static str {
    match number {
        0 => "accepted",
        1 => "plan: a value not finite",
        2 => "plan: a size <= 0",
        3 => "plan: radius <= 0",
        4 => "plan: unit <= 0",
        5 => "plan: columns or rows below 1 before the cut",
        6 => "plan: radius >= sector length",
        7 => "plan: scale >= 10",
        8 => "plan: scale 0 (the quotient rounds to 0)",
        9 => "plan: columns or rows above 10",
        10 => "read file: under 5 bytes",
        11 => "columns or rows outside 1 to 10",
        12 => "scale outside 1 to 9",
        13 => "read file: count above 10,000",
        14 => "read file: length not 5 + 3 x count",
        15 => "read file: a floor number too large",
        16 => "read file: list length not 100 x sectors",
        17 => "build: base list length not 100 x sectors",
        18 => "store too short",
        19 => "store check: fourth byte not 0",
        20 => "store check: a mark above 1,023, or not 0 on a side without neighbour",
        21 => "change: floor number too large",
        22 => {
            "change: a sector marked afresh has more windows on a side than the facing side of a sector not marked afresh"
        }
        23 => "route: source too large",
        24 => "route: goal too large",
        25 => "route: more steps than the lent list holds",
        26 => "windows: sector number too large",
        27 => "windows: list too short",
        28 => "read file: a floor number stands twice in the file",
        29 => "write file: the output is shorter than the file",
        _ => "no refusal has this number",
    }
}
