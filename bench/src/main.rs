//! Times the proved library against the Rust of docs/src with the real petgraph, turn
//! about in one process. Times are medians, and both sides are held to the same stores
//! and runs. `bench rows` lists the rows whose instructions are counted, and `bench row N`
//! makes the library's calls of one.

mod counted;
mod files;
mod halls;
mod routes;
mod stores;
mod timing;

fn main() {
    let words: Vec<String> = std::env::args().skip(1).collect();
    match words.iter().map(String::as_str).collect::<Vec<_>>()[..] {
        [] => print(),
        ["rows"] => counted::list(),
        ["row", number] => counted::make(number.parse().expect("a row's number")),
        _ => panic!("bench, bench rows or bench row N"),
    }
}

fn print() {
    files::print();
    stores::print();
    routes::print();
    routes::print_growth();
}
