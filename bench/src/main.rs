//! Times the engine's calls beside plain Rust and the reference in one run, and
//! checks that they agree. `timing::print_head` says what is printed.

mod check;
mod hour;
mod load;
mod plain;
mod rate;
mod read;
mod split;
mod timing;
mod write;

fn main() {
    timing::print_head();
    split::compare();
    load::compare();
    let counted = hour::compare();
    println!("the longest file: 64 x 64, 2,048 rows, 256 transactions with sellers");
    let longest = hour::longest();
    check::compare(&longest);
    write::compare(&longest);
    read::compare(&longest);
    rate::print(&counted);
}
