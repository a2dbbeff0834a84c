//! The engine's calls in plain Rust, written for speed by the engine's own
//! measures: what is known is not tested again, lists are read where they stand,
//! and what is kept meanwhile has a small size, too, so that a small call clears
//! little. Beyond these, a row is read as one word, and a load's table has rows
//! only for those who get some.

mod file;
mod hour;
mod load;
mod read;
mod row;
mod split;
mod write;

pub use hour::settle;
pub use load::assign;
pub use read::read;
pub use split::split;
pub use write::write;

/// An error is the number of the refusal.
pub type Answer = Result<(), u32>;

/// Of participants, of locations and of buses.
const MOST: usize = 64;
/// As many don't pay for clearing the room of the most.
const FEW: usize = 8;

const MOST_KW: i64 = 20_000_000;

pub fn check(file: &[u8]) -> Answer {
    file::File::new(file)?.test()
}

fn number(eight: &[u8]) -> i64 {
    i64::from_le_bytes(eight.try_into().unwrap())
}

fn numbers(list: &[u8]) -> impl ExactSizeIterator<Item = i64> + Clone + '_ {
    list.chunks_exact(8).map(number)
}

/// Numbers that are 0 or more.
fn sizes(list: &[u8]) -> impl ExactSizeIterator<Item = u64> + Clone + '_ {
    numbers(list).map(|number| number as u64)
}

fn put_numbers(list: &mut [u8], numbers: impl Iterator<Item = i64>) {
    for (eight, number) in list.chunks_exact_mut(8).zip(numbers) {
        eight.copy_from_slice(&number.to_le_bytes());
    }
}

/// Negative where a number is below the least, which is at most 0, or above the
/// most. Joined by `|`, those of many numbers take one branch, and no order.
fn beyond(number: i64, least: i64, most: i64) -> i64 {
    number.wrapping_sub(least) | most.wrapping_sub(number)
}
