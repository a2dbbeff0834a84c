//! wz_write_file.

use crate::plain;
use crate::timing::{self, Case};
use reference::cases;
use reference::exercise::read_header;
use reference::random::Random;
use reference::read::{lens_of, read_file};
use reference::write::{write_file, Given};

extern "C" {
    fn wz_write_file(
        participants: i64,
        locations: i64,
        rows: i64,
        transactions: i64,
        edition: i64,
        prices: *const u8,
        prices_len: usize,
        row_list: *const u8,
        row_list_len: usize,
        transaction_list: *const u8,
        transaction_list_len: usize,
        file: *mut u8,
        file_len: usize,
    ) -> u32;
}

struct Write {
    given: Given,
    out_len: usize,
}

impl Case for Write {
    fn inputs(&self) -> Vec<&[u8]> {
        let given = &self.given;
        vec![&given.prices, &given.row_list, &given.transaction_list]
    }

    fn out_len(&self) -> usize {
        self.out_len
    }

    fn engine(&self, out: &mut [u8]) -> u32 {
        let given = &self.given;
        // Every list is lent with its own length.
        unsafe {
            wz_write_file(
                given.participants,
                given.locations,
                given.rows,
                given.transactions,
                given.edition,
                given.prices.as_ptr(),
                given.prices.len(),
                given.row_list.as_ptr(),
                given.row_list.len(),
                given.transaction_list.as_ptr(),
                given.transaction_list.len(),
                out.as_mut_ptr(),
                out.len(),
            )
        }
    }

    fn plain(&self, out: &mut [u8]) -> plain::Answer {
        plain::write(&self.given, out)
    }

    fn reference(&self, out: &mut [u8]) -> u32 {
        write_file(&self.given, out)
    }

    fn draw(turn: usize, random: &mut Random) -> Write {
        let case = cases::write::draw(turn, random);
        Write {
            given: case.given(),
            out_len: case.buffer_len(),
        }
    }
}

pub fn compare(files: &[Vec<u8>]) {
    timing::try_plain::<Write>();
    let cases: Vec<Write> = files.iter().map(|file| writing(file)).collect();
    timing::compare("write", &cases);
}

/// The call that writes a file.
fn writing(file: &[u8]) -> Write {
    let header = read_header(file).expect("an accepted file");
    let mut lists = lens_of(&header).map(|len| vec![0; len]);
    assert_eq!(read_file(file, &mut lists), 0, "an accepted file");
    let [prices, row_list, transaction_list] = lists;
    let given = Given {
        participants: header.participants as i64,
        locations: header.locations as i64,
        rows: header.rows as i64,
        transactions: header.transactions as i64,
        edition: header.edition.number(),
        prices,
        row_list,
        transaction_list,
    };
    Write {
        given,
        out_len: file.len(),
    }
}
