//! What c/numbers.c prints, from Rust: the version, and what each number means.

use hall::Refusal;

fn main() {
    assert_eq!(hall::version(), hall::VERSION);
    println!("version {}", hall::VERSION);
    for number in 0..=u8::MAX {
        println!("{number} {}", Refusal(number).text());
    }
}
