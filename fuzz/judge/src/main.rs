//! `judge FOLDER COUNT` writes inputs for the fuzzers of the hour and of reading
//! to start from: the files of the first cases that the tests draw, each behind
//! the byte that says that the output lists are as long as they must be.

use reference::cases::hour::draw;
use reference::random::Random;
use std::path::Path;
use std::{env, fs, process};

fn main() {
    let words: Vec<String> = env::args().skip(1).collect();
    let (folder, count) = match words.as_slice() {
        [folder, count] => (Path::new(folder), count.parse().expect("a count")),
        _ => {
            eprintln!("usage: judge FOLDER COUNT");
            process::exit(2);
        }
    };
    let mut random = Random::new(1);
    for turn in 0..count {
        let (file, _) = draw(turn, &mut random);
        let input = [&[0], file.as_slice()].concat();
        fs::write(folder.join(format!("case-{turn}")), input).expect("a file written");
    }
}
