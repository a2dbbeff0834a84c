//! wz_settle_hour.

use crate::plain;
use crate::timing::{self, Case, INPUTS};
use reference::cases;
use reference::exercise::Edition;
use reference::random::Random;

timing::engines!(
    wz_settle_hour,
    before_wz_settle_hour,
    (
        file: *const u8,
        file_len: usize,
        congestion: *mut u8,
        congestion_len: usize,
        loss: *mut u8,
        loss_len: usize,
        credit: *mut u8,
        credit_len: usize,
        net: *mut u8,
        net_len: usize,
    )
);

pub struct Hour {
    file: Vec<u8>,
    /// The lengths of the output lists.
    lens: [usize; 4],
}

impl Hour {
    /// With lists as its file asks for.
    fn new(file: Vec<u8>) -> Hour {
        let participants = reference::counts::participants(&file);
        let lens = [8 * participants as usize; 4];
        Hour { file, lens }
    }

    fn lists<'a>(&self, out: &'a mut [u8]) -> [&'a mut [u8]; 4] {
        let (congestion, out) = out.split_at_mut(self.lens[0]);
        let (loss, out) = out.split_at_mut(self.lens[1]);
        let (credit, net) = out.split_at_mut(self.lens[2]);
        [congestion, loss, credit, net]
    }

    fn call(&self, call: Call, out: &mut [u8]) -> u32 {
        let [congestion, loss, credit, net] = self.lists(out);
        // Every list is lent with its own length.
        unsafe {
            call(
                self.file.as_ptr(),
                self.file.len(),
                congestion.as_mut_ptr(),
                congestion.len(),
                loss.as_mut_ptr(),
                loss.len(),
                credit.as_mut_ptr(),
                credit.len(),
                net.as_mut_ptr(),
                net.len(),
            )
        }
    }
}

impl Case for Hour {
    fn inputs(&self) -> Vec<&[u8]> {
        vec![&self.file]
    }

    fn out_len(&self) -> usize {
        self.lens.iter().sum()
    }

    fn engine(&self, out: &mut [u8]) -> u32 {
        self.call(wz_settle_hour, out)
    }

    #[cfg(feature = "before")]
    fn before() -> Option<timing::Answer<Hour>> {
        Some(|case, out| case.call(before_wz_settle_hour, out))
    }

    fn plain(&self, out: &mut [u8]) -> plain::Answer {
        plain::settle(&self.file, self.lists(out))
    }

    fn reference(&self, out: &mut [u8]) -> u32 {
        let lists = self.lists(out);
        let mut after = [0, 1, 2, 3].map(|list: usize| lists[list].to_vec());
        let number = reference::hour::settle_hour(&self.file, &mut after);
        for (list, after) in lists.into_iter().zip(after) {
            list.copy_from_slice(&after);
        }
        number
    }

    fn draw(turn: usize, random: &mut Random) -> Hour {
        let (file, lens) = cases::hour::draw(turn, random);
        Hour { file, lens }
    }
}

/// Edition, participants and as many locations, rows, transactions.
type Size = (Edition, usize, usize, usize);

const LONGEST: Size = (Edition::WithSeller, 64, 2_048, 256);

/// Of the first three, hours a second are counted, too.
const FAMILIES: [(&str, Size); 6] = [
    (
        "64 x 64, 2,048 rows, 256 transactions",
        (Edition::PathOnly, 64, 2_048, 256),
    ),
    ("16 x 16, 256 rows", (Edition::PathOnly, 16, 256, 0)),
    ("2 x 2, 3 rows", (Edition::PathOnly, 2, 3, 0)),
    (
        "64 x 64, 2,048 rows, 256 transactions with sellers",
        LONGEST,
    ),
    (
        "16 x 16, 1 row, 256 transactions",
        (Edition::PathOnly, 16, 1, 256),
    ),
    (
        "16 x 16, 1 row, 256 transactions with sellers",
        (Edition::WithSeller, 16, 1, 256),
    ),
];
const COUNTED: usize = 3;

/// Accepted hours of a size.
fn files((edition, size, rows, transactions): Size) -> Vec<Vec<u8>> {
    let mut random = Random::new(1);
    let mut case = || cases::hour::accepted(edition, size, size, rows, transactions, &mut random);
    (0..INPUTS).map(|_| case().bytes()).collect()
}

/// The longest files there are.
pub fn longest() -> Vec<Vec<u8>> {
    files(LONGEST)
}

/// Hours of a family, by its name.
pub type Family = (&'static str, Vec<Hour>);

/// Gives the hours that are to be counted.
pub fn compare() -> Vec<Family> {
    timing::try_plain::<Hour>();
    println!("hour, participants x locations");
    let mut families = Vec::new();
    for (name, size) in FAMILIES {
        let hours: Vec<Hour> = files(size).into_iter().map(Hour::new).collect();
        timing::compare(name, &hours);
        if families.len() < COUNTED {
            families.push((name, hours));
        }
    }
    families
}
