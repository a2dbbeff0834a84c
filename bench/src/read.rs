//! wz_read_file.

use crate::plain;
use crate::timing::{self, Case};
use reference::cases;
use reference::exercise::read_header;
use reference::random::Random;
use reference::read::{lens_of, read_file};

extern "C" {
    fn wz_read_file(
        file: *const u8,
        file_len: usize,
        prices: *mut u8,
        prices_len: usize,
        row_list: *mut u8,
        row_list_len: usize,
        transaction_list: *mut u8,
        transaction_list_len: usize,
    ) -> u32;
}

struct Read {
    file: Vec<u8>,
    /// The lengths of the lists.
    lens: [usize; 3],
}

impl Read {
    fn lists<'a>(&self, out: &'a mut [u8]) -> [&'a mut [u8]; 3] {
        let (prices, out) = out.split_at_mut(self.lens[0]);
        let (rows, transactions) = out.split_at_mut(self.lens[1]);
        [prices, rows, transactions]
    }
}

impl Case for Read {
    fn inputs(&self) -> Vec<&[u8]> {
        vec![&self.file]
    }

    fn out_len(&self) -> usize {
        self.lens.iter().sum()
    }

    fn engine(&self, out: &mut [u8]) -> u32 {
        let [prices, rows, transactions] = self.lists(out);
        // Every list is lent with its own length.
        unsafe {
            wz_read_file(
                self.file.as_ptr(),
                self.file.len(),
                prices.as_mut_ptr(),
                prices.len(),
                rows.as_mut_ptr(),
                rows.len(),
                transactions.as_mut_ptr(),
                transactions.len(),
            )
        }
    }

    fn plain(&self, out: &mut [u8]) -> plain::Answer {
        plain::read(&self.file, self.lists(out))
    }

    fn reference(&self, out: &mut [u8]) -> u32 {
        let lists = self.lists(out);
        let mut after = [0, 1, 2].map(|list: usize| lists[list].to_vec());
        let number = read_file(&self.file, &mut after);
        for (list, after) in lists.into_iter().zip(after) {
            list.copy_from_slice(&after);
        }
        number
    }

    fn draw(turn: usize, random: &mut Random) -> Read {
        let (file, lens) = cases::read::draw(turn, random);
        Read { file, lens }
    }
}

pub fn compare(files: &[Vec<u8>]) {
    timing::try_plain::<Read>();
    let case = |file: &Vec<u8>| {
        let header = read_header(file).expect("an accepted file");
        Read {
            file: file.clone(),
            lens: lens_of(&header),
        }
    };
    let cases: Vec<Read> = files.iter().map(case).collect();
    timing::compare("read", &cases);
}
