//! Which files the program reads and writes, and which it refuses to.

#[path = "common/program.rs"]
mod program;

use std::fs;
use std::os::unix::fs::symlink;

use program::{Folder, hallview, hallview_from, problem, sample};

const WRITERS: [&str; 4] = ["--svg", "--hall", "--input", "--drawing"];

/// A folder with the sample drawing as p.txt.
fn with_drawing(test: &str) -> (Folder, String) {
    let folder = Folder::new(test);
    let floor = folder.written("p.txt", fs::read(sample("parcels.txt")).unwrap());
    (folder, floor)
}

#[test]
fn the_floor_that_is_read_is_not_overwritten() {
    let (folder, floor) = with_drawing("overwrite");
    fs::hard_link(folder.path("p.txt"), folder.path("hard.txt")).unwrap();
    symlink(folder.path("p.txt"), folder.path("soft.txt")).unwrap();
    fs::create_dir(folder.path("d")).unwrap();
    let before = fs::read(&floor).unwrap();
    for name in ["p.txt", "d/../p.txt", "hard.txt", "soft.txt"] {
        let name = folder.name(name);
        for option in WRITERS {
            let expected = format!("{option} {name} would overwrite the floor that is read");
            let other = folder.name("other");
            let second = if option == "--svg" { "--hall" } else { "--svg" };
            assert_eq!(problem(&[&floor, second, &other, option, &name]), expected);
            let words = ["-", option, &name];
            let (status, printed, said) = hallview_from(Some(&folder.path("p.txt")), &words);
            assert_eq!(
                (status, printed, said),
                (Some(1), "".into(), expected + "\n")
            );
        }
    }
    assert_eq!(fs::read(&floor).unwrap(), before);
    assert_eq!(folder.files(), ["d", "hard.txt", "p.txt", "soft.txt"]);
}

#[test]
fn two_options_that_write_the_same_file() {
    let (folder, floor) = with_drawing("same");
    folder.written("there", "");
    symlink("there", folder.path("to-there")).unwrap();
    symlink("new", folder.path("to-new")).unwrap();
    fs::create_dir(folder.path("d")).unwrap();
    let same = [
        ("there", "to-there"),
        ("new", "new"),
        ("new", "d/../new"),
        ("new", "to-new"),
        ("to-new", "to-new"),
    ];
    for (first, second) in same.map(|(a, b)| (folder.name(a), folder.name(b))) {
        let expected = format!("--hall and --svg would both write {second}");
        assert_eq!(
            problem(&[&floor, "--svg", &second, "--hall", &first]),
            expected
        );
    }
    assert_eq!(
        folder.files(),
        ["d", "p.txt", "there", "to-new", "to-there"]
    );
}

#[test]
fn one_thing_goes_to_standard_output() {
    let floor = sample("parcels.txt");
    for (first, second) in [("-", "-"), ("/dev/stdout", "-"), ("-", "/dev/stdout")] {
        let said = problem(&[&floor, "--svg", second, "--hall", first]);
        assert!(
            said.starts_with("--hall and --svg would both write "),
            "{said}"
        );
    }
    let alone = |option: &str| hallview(&[&floor, option, "-", "--plain"]);
    let (status, printed, _) = alone("--svg");
    assert_eq!(status, Some(0));
    assert!(printed.starts_with("<svg ") && printed.ends_with("</svg>\n"));
    assert!(
        alone("--drawing")
            .1
            .starts_with("scale 2\nwidth 2\n~ = 40\n")
    );
    assert!(hallview(&[&floor, "--plain"]).1.starts_with("     0      "));
}

#[test]
fn an_endless_floor_is_not_read_to_its_end() {
    let too_long = |name: &str, most: usize| format!("{name}: too long: more than {most} bytes");
    assert_eq!(problem(&["/dev/zero"]), too_long("/dev/zero", 1 << 20));
    let folder = Folder::new("long");
    let remarks = "// nothing\n".repeat(100_000);
    let long = folder.written("long.txt", &remarks);
    assert_eq!(problem(&[&long]), too_long(&long, 1 << 20));
    let pairs = fs::read(sample("two_sectors.hall")).unwrap();
    let longest = [pairs.clone(), vec![0; 65_536 - pairs.len()]].concat();
    let read = folder.written("longest.hall", &longest);
    assert_eq!(hallview(&[&read]).0, Some(0));
    let long = folder.written("long.hall", [longest, vec![0]].concat());
    assert_eq!(problem(&[&long]), too_long(&long, 65_536));
}

#[test]
fn names_in_messages_move_no_cursor() {
    let said = problem(&["\u{1b}[31mno.txt"]);
    assert!(said.starts_with("U+001B[31mno.txt: "), "{said}");
    for words in [
        ["a.txt", "\u{1b}b"],
        ["a.txt", "-\u{1b}b"],
        ["--pair", "\u{1b}b"],
    ] {
        assert!(problem(&words).contains("U+001Bb"));
    }
}
