//! What a declaration can't say: that the library puts each value of an answer where the declaration reads it, and takes
//! each argument as it is declared. Values that could be exchanged differ, and each number is asked for.

use std::error::Error;

use hall::{
    BLOCKED, Dimensions, MOST_FILE_BYTES, MOST_STEPS, MOST_WINDOWS, Measures, NO_WINDOW, Refusal,
    Routed, Step, Store, Window,
};

fn measures(columns: u8, rows: u8, scale: u8) -> Measures {
    Measures {
        columns,
        rows,
        scale,
    }
}

fn plan(size_x: f32, size_y: f32, unit: f32, radius: f32) -> Result<Measures, Refusal> {
    hall::plan(Dimensions {
        size_x,
        size_y,
        unit,
        radius,
    })
}

/// A hall in which these cells are blocked and all others cost 1.
fn store(columns: u8, rows: u8, scale: u8, blocked: &[usize]) -> Store {
    let measures = measures(columns, rows, scale);
    let mut base = vec![1; measures.cells()];
    blocked.iter().for_each(|&cell| base[cell] = BLOCKED);
    Store::build(measures, &base).expect("the hall is accepted")
}

/// The answer to a route call in the form of the program hallroute, without the pair.
fn card(store: &Store, source: usize, goal: usize) -> String {
    let mut list = [Step::default(); MOST_STEPS];
    match store.route(source, goal, &mut list) {
        Ok(Routed::Route { steps, leg, run }) => {
            let steps: Vec<String> = steps.iter().map(Step::to_string).collect();
            format!("{} {leg} {run} {}", steps.len(), steps.join(" "))
        }
        Ok(Routed::NoRoute) => "none".into(),
        Err(Refusal(number)) => format!("no {number}"),
    }
}

#[test]
fn plan_gives_columns_rows_and_scale() {
    assert_eq!(plan(30.0, 70.0, 1.0, 4.5), Ok(measures(3, 7, 5)));
    assert_eq!(plan(2.0, 2.0, 0.1, 0.3), Ok(measures(2, 2, 3)));
}

#[test]
fn plan_refuses() {
    assert_eq!(plan(f32::NAN, 10.0, 1.0, 1.0), Err(Refusal(1)));
    assert_eq!(plan(20.0, 0.0, 1.0, 1.0), Err(Refusal(2)));
    assert_eq!(plan(20.0, 10.0, 1.0, 0.0), Err(Refusal(3)));
    assert_eq!(plan(20.0, 10.0, 0.0, 1.0), Err(Refusal(4)));
    assert_eq!(plan(20.0, 9.0, 1.0, 1.0), Err(Refusal(5)));
    assert_eq!(plan(20.0, 10.0, 1.0, 10.0), Err(Refusal(6)));
    assert_eq!(plan(20.0, 10.0, 1.0, 9.5), Err(Refusal(7)));
    assert_eq!(plan(100.0, 100.0, 10.0, 1e-45), Err(Refusal(8)));
    assert_eq!(plan(110.0, 10.0, 1.0, 1.0), Err(Refusal(9)));
}

#[test]
fn a_file_gives_measures_and_base_costs() {
    let mut base = [0; 600];
    let mut owed = [1; 600];
    owed[7] = 9;
    owed[300] = BLOCKED;
    let file = [3, 2, 4, 2, 0, 7, 0, 0x2c, 0x01, 9, BLOCKED];
    let turned = [3, 2, 4, 2, 0, 0x2c, 0x01, 7, 0, BLOCKED, 9];
    for file in [file, turned] {
        assert_eq!(hall::read_file(&file, &mut base), Ok(measures(3, 2, 4)));
        assert_eq!(base, owed);
    }
}

#[test]
fn files_are_refused() {
    let read = |file: &[u8]| hall::read_file(file, &mut [0; 99]);
    assert_eq!(read(&[1, 1, 1, 0]), Err(Refusal(10)));
    assert_eq!(read(&[1, 11, 1, 0, 0]), Err(Refusal(11)));
    assert_eq!(read(&[1, 1, 10, 0, 0]), Err(Refusal(12)));
    assert_eq!(read(&[1, 1, 1, 0x11, 0x27]), Err(Refusal(13)));
    assert_eq!(read(&[1, 1, 1, 1, 0]), Err(Refusal(14)));
    assert_eq!(read(&[1, 1, 1, 1, 0, 100, 0, 1]), Err(Refusal(15)));
    let repeated = [1, 1, 1, 2, 0, 7, 0, 7, 0, 5, 5];
    assert_eq!(read(&repeated), Err(Refusal(28)));
    let repeated_and_off = [1, 1, 1, 3, 0, 0, 0, 0, 0, 100, 0, 1, 1, 1];
    assert_eq!(read(&repeated_and_off), Err(Refusal(15)));
    assert_eq!(read(&[1, 1, 1, 1, 0, 99, 0, 1]), Err(Refusal(16)));
}

#[test]
fn a_store_has_the_bytes_of_01() {
    let store = store(2, 1, 2, &[59, 151]);
    let mut base = [1; 200];
    base[59] = BLOCKED;
    base[151] = BLOCKED;
    let mut scaled = base;
    scaled[50] = BLOCKED;
    scaled[150] = BLOCKED;
    let marks = [0, 0, 0xdf, 3, 0, 0, 0, 0, 0, 0, 0, 0, 0, 0, 0xdf, 3];
    let owed = [&[2, 1, 2, 0][..], &base, &scaled, &marks].concat();
    assert_eq!(store.bytes(), owed);
    assert_eq!(Store::from_bytes(owed), Ok(store));
}

#[test]
fn halls_are_refused() {
    let build = |measures, cells| Store::build(measures, &vec![1; cells]).unwrap_err();
    assert_eq!(build(measures(0, 1, 1), 0), Refusal(11));
    assert_eq!(build(measures(1, 11, 1), 1100), Refusal(11));
    assert_eq!(build(measures(1, 1, 10), 100), Refusal(12));
    assert_eq!(build(measures(1, 1, 1), 99), Refusal(17));
    let short = hall::build(measures(1, 1, 1), &[1; 100], &mut [0; 211]);
    assert_eq!(short, Err(Refusal(18)));
}

#[test]
fn stores_are_refused() {
    let bytes = store(2, 1, 1, &[]).bytes().to_vec();
    let with = |at: usize, byte: u8| {
        let mut bytes = bytes.clone();
        bytes[at] = byte;
        hall::check_store(&bytes)
    };
    assert_eq!(hall::check_store(&bytes), Ok(()));
    assert_eq!(hall::check_store(&bytes[..3]), Err(Refusal(18)));
    assert_eq!(with(0, 0), Err(Refusal(11)));
    assert_eq!(with(2, 0), Err(Refusal(12)));
    assert_eq!(with(3, 1), Err(Refusal(19)));
    assert_eq!(hall::check_store(&bytes[..419]), Err(Refusal(18)));
    assert_eq!(with(404, 1), Err(Refusal(20)));
}

#[test]
fn changes_are_made_or_refused() {
    let mut hall = store(3, 1, 2, &[48, 150]);
    let before = hall.clone();
    assert_eq!(hall.change(300, BLOCKED), Err(Refusal(21)));
    assert_eq!(hall.change(1 << 32, BLOCKED), Err(Refusal(21)));
    assert_eq!(hall.change(68, BLOCKED), Err(Refusal(22)));
    assert_eq!(hall, before);

    let mut hall = store(2, 1, 1, &[]);
    assert_eq!(hall.change(148, 7), Ok(()));
    assert_eq!((hall.bytes()[152], hall.bytes()[352]), (7, 7));
}

#[test]
fn cards_are_those_of_01() {
    let two = store(2, 1, 1, &[]);
    assert_eq!(card(&two, 0, 100), "2 13 5 0,0:49E9-99 1,0:0-");
    let walls: Vec<usize> = (301..310).chain((310..400).step_by(10)).collect();
    let four = store(2, 2, 1, &walls);
    assert_eq!(card(&four, 300, 109), "2 0 1 1,1:0N0-0 0,1:9-");
    let blocked = store(1, 1, 1, &[0]);
    assert_eq!(card(&blocked, 0, 0), "1 0 0 0,0:0-");
    assert_eq!(card(&blocked, 0, 1), "none");
}

#[test]
fn routes_are_refused() {
    let two = store(2, 1, 1, &[]);
    assert_eq!(card(&two, 200, 0), "no 23");
    assert_eq!(card(&two, 1 << 32, 0), "no 23");
    assert_eq!(card(&two, 0, 200), "no 24");
    assert_eq!(card(&two, 0, 1 << 32), "no 24");
    let mut list = [Step::default(); 1];
    assert_eq!(two.route(0, 100, &mut list), Err(Refusal(25)));
}

#[test]
fn steps_have_their_fields() {
    let two = store(1, 2, 1, &[]);
    let mut list = [Step::default(); 2];
    let routed = two.route(12, 134, &mut list);
    let Ok(Routed::Route { steps, .. }) = routed else {
        panic!("{routed:?}");
    };
    let window = Window {
        first: 90,
        last: 99,
        side: 2,
    };
    assert_eq!((steps[0].column, steps[0].row, steps[0].goal), (0, 0, 94));
    assert_eq!(steps[0].window(), Some(window));
    assert_eq!((steps[1].column, steps[1].row, steps[1].goal), (0, 1, 34));
    assert_eq!((steps[1].side, steps[1].window()), (NO_WINDOW, None));
}

#[test]
fn windows_have_their_fields() {
    let nine = store(3, 3, 1, &[420]);
    let mut list = [Window::default(); MOST_WINDOWS];
    let windows = nine.windows(4, &mut list).expect("sector 4 is there");
    let shown: Vec<String> = windows.iter().map(Window::to_string).collect();
    assert_eq!(shown, ["N0-9", "E9-99", "S90-99", "W0-10", "W30-90"]);
    assert_eq!(nine.windows(9, &mut list), Err(Refusal(26)));
    assert_eq!(nine.windows(1 << 32, &mut list), Err(Refusal(26)));
    assert_eq!(nine.windows(4, &mut list[..4]), Err(Refusal(27)));
}

/// The hall file of a store's floor.
fn file_of(store: &Store) -> Vec<u8> {
    let mut room = [0; MOST_FILE_BYTES];
    let file = store.write_file(&mut room);
    file.expect("there is room for every file").to_vec()
}

#[test]
fn a_file_has_the_cells_that_do_not_cost_1() {
    assert_eq!(file_of(&store(3, 2, 4, &[])), [3, 2, 4, 0, 0]);
    let mut hall = store(3, 2, 4, &[300, 7]);
    hall.change(599, 0).expect("the change is accepted");
    let owed = [
        3, 2, 4, 3, 0, 7, 0, 0x2c, 0x01, 0x57, 0x02, BLOCKED, BLOCKED, 0,
    ];
    assert_eq!(file_of(&hall), owed);
    hall.change(300, 1).expect("the change is accepted");
    assert_eq!(
        file_of(&hall),
        [3, 2, 4, 2, 0, 7, 0, 0x57, 0x02, BLOCKED, 0]
    );
}

#[test]
fn a_file_that_is_written_gives_the_floor_back() {
    let measures = measures(10, 10, 9);
    let base: Vec<u8> = (0..10_000_usize).map(|cell| (cell % 256) as u8).collect();
    for base in [vec![1; 10_000], vec![BLOCKED; 10_000], base] {
        let file = file_of(&Store::build(measures, &base).expect("the hall is accepted"));
        let named = base.iter().filter(|cost| **cost != 1).count();
        assert_eq!(file.len(), 5 + 3 * named);
        let mut read = vec![0; 10_000];
        assert_eq!(hall::read_file(&file, &mut read), Ok(measures));
        assert_eq!(read, base);
    }
}

#[test]
fn scaled_costs_and_marks_have_no_part_in_a_file() {
    let hall = store(2, 1, 2, &[59, 151]);
    let mut bytes = hall.bytes().to_vec();
    bytes[4 + 200..4 + 400].fill(7);
    bytes[4 + 400..].fill(0);
    let other = Store::from_bytes(bytes).expect("no mark is set");
    assert_eq!(file_of(&other), file_of(&hall));
}

#[test]
fn the_library_is_the_declared_one() {
    assert_eq!(hall::version(), hall::VERSION);
}

#[test]
fn refusals_say_what_they_mean() {
    let refusal: Box<dyn Error> = Box::new(Refusal(27));
    assert_eq!(refusal.to_string(), "no 27, windows: list too short");
}
