//! The check of a file. It is no call of the product; the tests' archive has it.

use crate::plain;
use crate::timing::{self, Case};
use reference::cases;
use reference::random::Random;

extern "C" {
    fn probe_check(file: *const u8, file_len: usize) -> u32;
}

struct Check {
    file: Vec<u8>,
}

impl Case for Check {
    fn inputs(&self) -> Vec<&[u8]> {
        vec![&self.file]
    }

    fn out_len(&self) -> usize {
        0
    }

    fn engine(&self, _: &mut [u8]) -> u32 {
        // The file is lent with its own length.
        unsafe { probe_check(self.file.as_ptr(), self.file.len()) }
    }

    fn plain(&self, _: &mut [u8]) -> plain::Answer {
        plain::check(&self.file)
    }

    fn reference(&self, _: &mut [u8]) -> u32 {
        reference::exercise::check(&self.file)
    }

    fn draw(turn: usize, random: &mut Random) -> Check {
        let file = cases::check::draw(turn, random);
        Check { file }
    }
}

pub fn compare(files: &[Vec<u8>]) {
    timing::try_plain::<Check>();
    let case = |file: &Vec<u8>| Check { file: file.clone() };
    let cases: Vec<Check> = files.iter().map(case).collect();
    timing::compare("check", &cases);
}
