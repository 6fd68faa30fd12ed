//! The floors under "Floors to try" in document 01, and the inputs at which
//! its readings go wrong easily.

use second::*;

/// Base costs of 1, some cells blocked.
fn base_with(sectors: usize, blocked: &[usize]) -> Vec<u8> {
    let mut base = vec![1; 100 * sectors];
    for &number in blocked {
        base[number] = 255;
    }
    base
}

fn store_size(sectors: usize) -> usize {
    4 + 208 * sectors
}

/// A built store of exactly its size.
fn built(columns: u8, rows: u8, scale: u8, blocked: &[usize]) -> Vec<u8> {
    let sectors = usize::from(columns) * usize::from(rows);
    let base = base_with(sectors, blocked);
    let mut store = vec![0; store_size(sectors)];
    assert_eq!(build(columns, rows, scale, &base, &mut store), 0);
    store
}

fn sectors_of(store: &[u8]) -> usize {
    usize::from(store[0]) * usize::from(store[1])
}

fn scaled_of(store: &[u8]) -> &[u8] {
    let cells = 100 * sectors_of(store);
    &store[4 + cells..4 + 2 * cells]
}

/// Floor numbers whose scaled cost is 255 although their base cost is not.
fn newly_blocked(store: &[u8]) -> Vec<usize> {
    let cells = 100 * sectors_of(store);
    let base = &store[4..4 + cells];
    let scaled = scaled_of(store);
    (0..cells)
        .filter(|&number| base[number] != 255 && scaled[number] == 255)
        .collect()
}

fn set_mark(store: &mut [u8], sector: usize, side: usize, mark: u16) {
    let at = 4 + 200 * sectors_of(store) + 8 * sector + 2 * side;
    store[at..at + 2].copy_from_slice(&mark.to_le_bytes());
}

/// A hall file that blocks cells, then pairs, as the program reads them.
fn input(head: [u8; 3], blocked: &[u16], pairs: &[(u16, u16)]) -> Vec<u8> {
    let mut bytes = head.to_vec();
    bytes.extend((blocked.len() as u16).to_le_bytes());
    bytes.extend(blocked.iter().flat_map(|number| number.to_le_bytes()));
    bytes.extend(vec![255; blocked.len()]);
    for (source, goal) in pairs {
        bytes.extend(source.to_le_bytes());
        bytes.extend(goal.to_le_bytes());
    }
    bytes
}

fn printed(input: &[u8]) -> String {
    String::from_utf8(hallroute(input)).unwrap()
}

/// A change that is refused leaves the store as it was.
fn assert_change_refused(store: &[u8], number: usize, cost: u8, refusal: u8) {
    let mut lent = store.to_vec();
    assert_eq!(change(&mut lent, number, cost), refusal);
    assert_eq!(lent, store);
}

fn planned(number: u8, columns: u8, rows: u8, scale: u8) -> PlanAnswer {
    PlanAnswer {
        number,
        columns,
        rows,
        scale,
    }
}

#[test]
fn plan_of_sizes_20_and_10() {
    assert_eq!(plan(20.0, 10.0, 1.0, 1.0), planned(0, 2, 1, 1));
    assert_eq!(plan(20.0, 10.0, 1.0, 9.0), planned(0, 2, 1, 9));
    assert_eq!(plan(20.0, 10.0, 1.0, 9.5), planned(7, 0, 0, 0));
    assert_eq!(plan(20.0, 10.0, 1.0, 10.0), planned(6, 0, 0, 0));
}

#[test]
fn plan_divides_once_in_f32() {
    assert_eq!(plan(2.0, 2.0, 0.1, 0.3), planned(0, 2, 2, 3));
    assert_eq!(plan(2.1, 2.1, 0.07, 0.07), planned(0, 3, 3, 1));
}

#[test]
fn plan_cuts_before_it_limits() {
    assert_eq!(plan(109.0, 10.0, 1.0, 1.0), planned(0, 10, 1, 1));
    assert_eq!(plan(110.0, 10.0, 1.0, 1.0), planned(9, 0, 0, 0));
    assert_eq!(plan(10.0, 109.0, 1.0, 1.0), planned(0, 1, 10, 1));
    assert_eq!(plan(10.0, 110.0, 1.0, 1.0), planned(9, 0, 0, 0));
    assert_eq!(plan(9.99, 10.0, 1.0, 1.0).number, 5);
}

#[test]
fn plan_refuses_in_order() {
    assert_eq!(plan(f32::NAN, 0.0, 0.0, 0.0).number, 1);
    assert_eq!(plan(-1.0, 10.0, 1.0, f32::INFINITY).number, 1);
    assert_eq!(plan(-0.0, 10.0, 1.0, 1.0).number, 2);
    assert_eq!(plan(10.0, -0.0, 0.0, 0.0).number, 2);
    assert_eq!(plan(10.0, 10.0, 0.0, 0.0).number, 3);
    assert_eq!(plan(10.0, 10.0, 0.0, 1.0).number, 4);
    assert_eq!(plan(5.0, 10.0, 1.0, 100.0).number, 5);
}

#[test]
fn plan_at_the_ends_of_f32() {
    let tiny = f32::from_bits(1);
    // Unit × 10 is infinite.
    assert_eq!(plan(f32::MAX, f32::MAX, f32::MAX, 1.0).number, 5);
    // Size over sector length is infinite.
    assert_eq!(plan(f32::MAX, f32::MAX, tiny, tiny).number, 9);
    // The scale's quotient rounds to 0, on floors within and above 10.
    assert_eq!(plan(1e10, 1e10, 1e9, tiny).number, 8);
    assert_eq!(plan(1e30, 1e30, 1e9, tiny).number, 8);
}

#[test]
fn scaling_to_the_end_of_the_floor() {
    assert_eq!(newly_blocked(&built(1, 1, 2, &[51])), [40, 50, 60]);
    assert!(newly_blocked(&built(1, 1, 2, &[52])).is_empty());
}

#[test]
fn scaling_over_a_border_writes_where_the_walk_began() {
    assert_eq!(newly_blocked(&built(2, 1, 2, &[59, 151])), [50, 150]);
}

#[test]
fn scaling_at_1_writes_nothing() {
    let blocked: Vec<usize> = (0..900).filter(|number| number % 7 < 3).collect();
    assert!(newly_blocked(&built(3, 3, 1, &blocked)).is_empty());
}

#[test]
fn scaled_costs_and_marks_stand_in_the_store() {
    let store = built(3, 2, 3, &[59, 151, 222, 377]);
    let floor = Floor {
        columns: 3,
        rows: 2,
    };
    let scaled = scaled_costs(floor, 3, &base_with(6, &[59, 151, 222, 377]));
    assert_eq!(scaled_of(&store), scaled);
    let marks: Vec<u8> = marks_of(floor, &scaled)
        .iter()
        .flatten()
        .flat_map(|mark| mark.to_le_bytes())
        .collect();
    assert_eq!(store[4 + 200 * 6..], marks);
}

#[test]
fn change_that_builds_but_is_refused() {
    assert_change_refused(&built(3, 1, 2, &[48, 150]), 68, 255, 22);
    built(3, 1, 2, &[48, 68, 150]);
}

#[test]
fn change_to_the_same_cost_alters_a_fresh_hall() {
    let fresh = built(2, 1, 2, &[18, 130]);
    let mut store = fresh.clone();
    assert_eq!(change(&mut store, 130, 255), 0);
    assert_ne!(store, fresh);
}

#[test]
fn change_to_the_same_cost_is_refused() {
    assert_change_refused(&built(3, 1, 2, &[109, 129, 211]), 211, 255, 22);
}

#[test]
fn change_that_opens_a_cell_is_refused() {
    assert_change_refused(&built(3, 1, 2, &[179, 222, 281]), 222, 1, 22);
}

#[test]
fn change_meets_a_stale_mark_of_a_lent_store() {
    let mut store = built(3, 1, 1, &[]);
    set_mark(&mut store, 2, 3, 0);
    assert_change_refused(&store, 0, 1, 22);
    // Fewer windows than the facing side are no refusal.
    set_mark(&mut store, 2, 3, 0b101);
    assert_eq!(change(&mut store, 0, 1), 0);
}

#[test]
fn change_at_scale_1_equals_a_build() {
    let mut store = built(3, 3, 1, &[59]);
    assert_eq!(change(&mut store, 450, 255), 0);
    assert_eq!(store, built(3, 3, 1, &[59, 450]));
    assert_change_refused(&store, 900, 1, 21);
    assert_change_refused(&store, usize::MAX, 1, 21);
}

#[test]
fn bytes_past_the_size_stay() {
    let mut store = vec![7; store_size(2) + 3];
    assert_eq!(build(2, 1, 1, &base_with(2, &[]), &mut store), 0);
    assert_eq!(change(&mut store, 9, 255), 0);
    assert_eq!(store[store_size(2)..], [7, 7, 7]);
    assert_eq!(store[..store_size(2)], built(2, 1, 1, &[9]));
}

#[test]
fn build_refuses_in_order() {
    let refused = |columns, rows, scale, length: usize, room: usize| {
        let mut store = vec![7; room];
        let number = build(columns, rows, scale, &vec![1; length], &mut store);
        assert_eq!(store, vec![7; room]);
        number
    };
    assert_eq!(refused(0, 1, 0, 0, 0), 11);
    assert_eq!(refused(1, 11, 1, 0, 0), 11);
    assert_eq!(refused(1, 1, 0, 0, 0), 12);
    assert_eq!(refused(1, 1, 10, 0, 0), 12);
    assert_eq!(refused(1, 1, 1, 101, 0), 17);
    assert_eq!(refused(1, 1, 1, 100, 211), 18);
}

#[test]
fn store_check_refuses_in_order() {
    assert_eq!(check_store(&[0, 0, 0]), 18);
    assert_eq!(check_store(&[0, 1, 0, 1]), 11);
    assert_eq!(check_store(&[1, 1, 0, 1]), 12);
    assert_eq!(check_store(&[1, 1, 1, 1]), 19);
    assert_eq!(check_store(&[1, 1, 1, 0]), 18);
    let store = built(2, 1, 1, &[]);
    assert_eq!(check_store(&store), 0);
    assert_eq!(check_store(&store[..store_size(2) - 1]), 18);
}

#[test]
fn store_check_of_marks_but_not_of_costs() {
    let mut store = built(2, 1, 1, &[]);
    store[4..404].fill(255);
    assert_eq!(check_store(&store), 0);
    for (sector, side, mark) in [(0, 1, 1_024), (0, 0, 1), (1, 1, 1)] {
        let mut store = store.clone();
        set_mark(&mut store, sector, side, mark);
        assert_eq!(check_store(&store), 20);
        assert_eq!(change(&mut store, 999, 1), 20);
        assert_eq!(route(&store, 999, 999, &mut []).number, 20);
        assert_eq!(windows(&store, 999, &mut []).number, 20);
    }
}

fn window(first: u8, last: u8, side: u8) -> Window {
    Window { first, last, side }
}

#[test]
fn windows_of_places_0_1_and_3() {
    let shut: Vec<usize> = [2, 4, 5, 6, 7, 8, 9].map(|place| 10 * place + 9).to_vec();
    let store = built(2, 1, 1, &shut);
    let mut list = [window(7, 7, 7); 3];
    let answer = WindowsAnswer {
        number: 0,
        count: 2,
    };
    assert_eq!(windows(&store, 0, &mut list), answer);
    assert_eq!(list, [window(9, 19, 1), window(39, 39, 1), window(7, 7, 7)]);
    assert_eq!(windows(&store, 1, &mut list), answer);
    assert_eq!(list[..2], [window(0, 10, 3), window(30, 30, 3)]);
    assert_eq!(list[0].midpoint(), 0);
    assert_eq!(list[1].midpoint(), 30);
}

#[test]
fn windows_of_an_open_floor_in_side_order() {
    let store = built(3, 3, 1, &[]);
    let mut list = [Window::default(); 4];
    assert_eq!(windows(&store, 4, &mut list).count, 4);
    let all = [
        window(0, 9, 0),
        window(9, 99, 1),
        window(90, 99, 2),
        window(0, 90, 3),
    ];
    assert_eq!(list, all);
    assert_eq!(all.map(Window::midpoint), [4, 49, 94, 40]);
}

#[test]
fn windows_refuses_in_order() {
    let store = built(3, 3, 1, &[]);
    let mut list = [window(7, 7, 7); 3];
    let refusal = |number| WindowsAnswer { number, count: 0 };
    assert_eq!(windows(&store, 9, &mut []), refusal(26));
    assert_eq!(windows(&store, 4, &mut list), refusal(27));
    assert_eq!(list, [window(7, 7, 7); 3]);
}

#[test]
fn at_most_5_windows_a_side_and_1800_portals() {
    let mut store = built(10, 10, 1, &[]);
    for at in (4 + 200 * 100..store.len()).step_by(2) {
        if store[at..at + 2] != [0, 0] {
            store[at..at + 2].copy_from_slice(&0b01_0101_0101u16.to_le_bytes());
        }
    }
    let graph = graph(&store);
    assert_eq!(graph.portals().len(), 1_800);
    let longest = route_on(&graph, 0, 9_999, &mut [Step::default(); 1_001]);
    assert!((2..=901).contains(&longest.steps));
}

#[test]
fn route_between_two_open_sectors() {
    let hex = [2, 1, 1, 0, 0, 0, 0, 0x64, 0];
    assert_eq!(printed(&hex), "0 100 2 13 5 0,0:49E9-99 1,0:0-\n");
}

#[test]
fn route_from_a_blocked_cell_to_itself() {
    let store = built(2, 1, 1, &[0]);
    let mut list = [Step::default(); 2];
    let answer = route(&store, 0, 0, &mut list);
    let expected = RouteAnswer {
        number: 0,
        steps: 1,
        leg: 0,
        run: 0,
    };
    assert_eq!(answer, expected);
    assert_eq!(list[0], Step::default());
    assert_eq!(
        printed(&input([2, 1, 1], &[0], &[(0, 0)])),
        "0 0 1 0 0 0,0:0-\n"
    );
}

/// Only the corner (0,0) of the last sector is open to its north and west.
fn corner_floor() -> Vec<u16> {
    (301..=309).chain((310..=390).step_by(10)).collect()
}

const CORNER_LINE: &str = "300 109 2 0 1 1,1:0N0-0 0,1:9-\n";

#[test]
fn route_whose_first_edge_is_inner() {
    let file = input([2, 2, 1], &corner_floor(), &[(300, 109)]);
    assert_eq!(printed(&file), CORNER_LINE);
}

fn corner_store() -> Vec<u8> {
    let blocked: Vec<usize> = corner_floor().into_iter().map(usize::from).collect();
    built(2, 2, 1, &blocked)
}

/// The portals of a sector, by their numbers in the graph.
fn portals_of(graph: &Graph, sector: usize) -> Vec<usize> {
    let all = graph.portals().iter().enumerate();
    all.filter(|(_, portal)| portal.sector == sector)
        .map(|(number, _)| number)
        .collect()
}

#[test]
fn windows_that_share_a_midpoint_are_0_apart() {
    let mut store = corner_store();
    for blocked in [false, true] {
        if blocked {
            // In a lent store the midpoint itself may be blocked.
            store[4 + 400 + 300] = 255;
        }
        let graph = graph(&store);
        let corner = portals_of(&graph, 3);
        assert_eq!(corner.len(), 2);
        assert_eq!(graph.path_cost(corner[0], corner[1]), Some(0));
        let mut list = [Step::default(); 2];
        let answer = route_on(&graph, 300, 109, &mut list);
        assert_eq!((answer.steps, answer.leg, answer.run), (2, 0, 1));
        assert_eq!(list[0].window, Some(window(0, 0, 0)));
    }
}

#[test]
fn facing_windows_pair_up_to_the_smaller_count() {
    let mut store = built(2, 1, 1, &[]);
    // One cell of sector 0 is alone behind its second window.
    store[4 + 200 + 9] = 255;
    store[4 + 200 + 28] = 255;
    store[4 + 200 + 19] = 255;
    store[4 + 200 + 39] = 255;
    set_mark(&mut store, 0, 1, 0b101);
    set_mark(&mut store, 1, 3, 0b1);
    let none = RouteAnswer::default();
    assert_eq!(route(&store, 29, 150, &mut []), none);
    set_mark(&mut store, 1, 3, 0b10_0001);
    let mut list = [Step::default(); 2];
    let answer = route(&store, 29, 150, &mut list);
    assert_eq!((answer.steps, answer.leg, answer.run), (2, 0, 1));
}

#[test]
fn route_does_not_count_the_leg() {
    let file = input([2, 2, 1], &[], &[(294, 96)]);
    assert_eq!(printed(&file), "294 96 2 9 9 1,0:40W0-90 0,0:96-\n");
}

#[test]
fn equal_paths_go_by_column_before_row() {
    // South of the second sector starts at (0,9), its east at (9,0).
    let file = input([3, 3, 1], &[], &[(0, 804)]);
    let line = "0 804 5 13 31 0,0:49E9-99 1,0:94S90-99 1,1:49E9-99 2,1:94S90-99 2,2:4-\n";
    assert_eq!(printed(&file), line);
}

#[test]
fn route_in_one_sector_stays_there() {
    // Over the border it would be 4 moves.
    let wall: Vec<u16> = (11..=19).collect();
    let file = input([2, 1, 1], &wall, &[(9, 29)]);
    assert_eq!(printed(&file), "9 29 1 0 20 0,0:29-\n");
}

#[test]
fn route_lists_and_room() {
    let store = built(2, 1, 1, &[0]);
    let empty = RouteAnswer::default();
    let refusal = |number| RouteAnswer { number, ..empty };
    assert_eq!(route(&store, 200, 200, &mut []), refusal(23));
    assert_eq!(route(&store, 0, 200, &mut []), refusal(24));
    assert_eq!(route(&store, 5, 6, &mut []), refusal(25));
    assert_eq!(route(&store, 5, 0, &mut []), empty);
    let mark = Step {
        column: 7,
        row: 7,
        goal: 7,
        window: None,
    };
    let mut list = [mark; 3];
    assert_eq!(route(&store, 5, 100, &mut list[..1]), refusal(25));
    assert_eq!(route(&store, 0, 100, &mut list), empty);
    assert_eq!(list, [mark; 3]);
    assert_eq!(route(&store, 5, 100, &mut list).steps, 2);
    assert_eq!(list[2], mark);
}

#[test]
fn program_lines_of_every_kind() {
    let pairs = [(0, 100), (5, 100), (200, 0), (0, 200), (6, 5)];
    let mut bytes = input([2, 1, 1], &[0], &pairs);
    bytes.push(9);
    let lines = "0 100 none\n5 100 2 8 5 0,0:49E9-99 1,0:0-\n\
                 200 0 no 23\n0 200 no 24\n6 5 1 0 1 0,0:5-\ncut\n";
    assert_eq!(printed(&bytes), lines);
}

#[test]
fn program_refuses_a_hall_without_further_line() {
    assert_eq!(printed(&[]), "hall refused 10\n");
    assert_eq!(printed(&[2, 1, 1, 0]), "hall refused 10\n");
    assert_eq!(printed(&[2, 1, 1, 1, 0, 7]), "hall refused 14\n");
    assert_eq!(printed(&[2, 1, 1, 0x11, 0x27, 1, 2]), "hall refused 13\n");
    let mut long = vec![0; 65_536];
    long[..5].copy_from_slice(&[2, 1, 1, 0x11, 0x27]);
    assert_eq!(printed(&long), "hall refused 13\n");
    for (cells, number) in [(&[200][..], 15), (&[7, 8, 7], 28)] {
        let mut refused = input([2, 1, 1], cells, &[(0, 0)]);
        refused.push(0);
        assert_eq!(printed(&refused), format!("hall refused {number}\n"));
    }
    assert_eq!(printed(&[2, 0, 1, 0, 0, 1]), "hall refused 11\n");
}

#[test]
fn program_without_pairs() {
    assert_eq!(printed(&[2, 1, 1, 0, 0]), "");
    assert_eq!(printed(&[2, 1, 1, 0, 0, 1]), "cut\n");
    assert_eq!(printed(&[2, 1, 1, 0, 0, 1, 2, 3]), "cut\n");
}

#[test]
fn program_reads_at_most_65536_bytes() {
    let mut bytes = vec![0; 65_536];
    bytes[..5].copy_from_slice(&[1, 1, 1, 0, 0]);
    let lines = printed(&bytes);
    assert!(lines.starts_with("0 0 1 0 0 0,0:0-\n") && lines.ends_with("cut\n"));
    assert_eq!(lines.lines().count(), 16_383);
    bytes.push(0);
    assert_eq!(printed(&bytes), "too long\n");
}
