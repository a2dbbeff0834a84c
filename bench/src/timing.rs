//! What the comparison of every call shares.

use crate::plain;
use reference::random::Random;
use std::hint::black_box;
use std::time::Instant;

/// Different ones, of each family.
pub const INPUTS: usize = 1_000;

const ROUNDS: usize = 501;

/// The inputs of a round are at most so many, so that those of the next are others.
const ROUND_INPUTS: usize = INPUTS / 2;
/// They come to at most so many bytes, so that they stay in a core's own cache.
const ROUND_BYTES: usize = 256 * 1024;

/// Cases, good and damaged, on which plain Rust is held against the reference.
const TRIED: usize = 2_000;

/// Declares a call of the engine, the same call of an engine from before where
/// one is linked, and their type, `Call`.
macro_rules! engines {
    ($now:ident, $before:ident, ($($name:ident: $type:ty),* $(,)?)) => {
        extern "C" {
            fn $now($($name: $type),*) -> u32;
            #[cfg(feature = "before")]
            fn $before($($name: $type),*) -> u32;
        }

        type Call = unsafe extern "C" fn($($type),*) -> u32;
    };
}
pub(crate) use engines;

/// A call with what it is given, and three that answer it.
pub trait Case: Sized {
    /// The lists that the call is given.
    fn inputs(&self) -> Vec<&[u8]>;
    /// The length of the output lists, which stand one behind the other.
    fn out_len(&self) -> usize;
    fn engine(&self, out: &mut [u8]) -> u32;
    fn plain(&self, out: &mut [u8]) -> plain::Answer;
    fn reference(&self, out: &mut [u8]) -> u32;

    /// A case of the reference's, of any family.
    fn draw(turn: usize, random: &mut Random) -> Self;

    /// What answers it in the engine from before, where one is linked.
    fn before() -> Option<Answer<Self>> {
        None
    }
}

pub type Answer<C> = fn(&C, &mut [u8]) -> u32;

fn plain<C: Case>(case: &C, out: &mut [u8]) -> u32 {
    case.plain(out).err().unwrap_or(0)
}

/// Leaves the program unless plain Rust does what the reference does.
pub fn try_plain<C: Case>() {
    let mut random = Random::new(1);
    for turn in 0..TRIED {
        let case = C::draw(turn, &mut random);
        agree(&case, &[plain], &mut random);
    }
}

/// Leaves the program unless all do what the reference does. Gives its number.
fn agree<C: Case>(case: &C, answers: &[Answer<C>], random: &mut Random) -> u32 {
    let before = random.bytes(case.out_len());
    let mut want = before.clone();
    let number = case.reference(&mut want);
    for answer in answers {
        let mut out = before.clone();
        assert_eq!(answer(case, &mut out), number, "they disagree");
        assert!(out == want, "they disagree");
    }
    number
}

/// Says what the table tells, and begins it.
pub fn print_head() {
    let inputs = grouped(INPUTS as f64);
    let bytes = ROUND_BYTES / 1024;
    println!(
        "\
Nanoseconds a call. A line is a family of {inputs} different inputs, drawn from a seed and all
accepted. A round goes through the next inputs of the family, each once, just fetched into
the cache: at most {ROUND_INPUTS} of them and {bytes} KB. The round after it goes through others, so that
a branch predictor has little to remember. {ROUNDS} rounds, in which the columns take turns.
  engine     the median of the rounds; called as from C
  plain      the same call in plain, safe Rust, written for speed (see bench/src/plain)
  reference  the tests' engine in Rust, written to be read; over a tenth of a round's inputs
  e/plain    engine to plain, the median of the rounds' ratios: below 1 the engine is faster"
    );
    if cfg!(feature = "before") {
        println!("  e/before   engine to the other checkout's engine, likewise");
    }
    print!(
        "\n{:52}{:>9}{:>8}{:>10}{:>9}",
        "", "engine", "plain", "reference", "e/plain"
    );
    if cfg!(feature = "before") {
        print!("{:>9}", "e/before");
    }
    println!();
}

/// Prints the times of all over cases of one family.
pub fn compare<C: Case>(name: &str, cases: &[C]) {
    let mut timed: Vec<Answer<C>> = vec![C::engine, plain];
    timed.extend(C::before());
    let mut random = Random::new(2);
    for case in cases {
        assert_eq!(agree(case, &timed, &mut random), 0, "{name}: refused");
    }
    timed.push(C::reference);
    let times = times_of(&timed, cases);
    let (engine, plain) = (&times[0], &times[1]);
    let reference = &times[timed.len() - 1];
    print!(
        "  {name:50}{:>9}{:>8}{:>10}{:9.2}",
        nanoseconds(engine),
        nanoseconds(plain),
        nanoseconds(reference),
        ratio(engine, plain)
    );
    if let [_, _, before, _] = &times[..] {
        print!("{:9.2}", ratio(engine, before));
    }
    println!();
}

/// The times of each, round by round; the last is the reference.
fn times_of<C: Case>(timed: &[Answer<C>], cases: &[C]) -> Vec<Vec<f64>> {
    let mut out = vec![0; cases[0].out_len()];
    let stretches = stretches(cases);
    let mut times = vec![Vec::new(); timed.len()];
    for round in 0..ROUNDS {
        let stretch = stretches[round % stretches.len()];
        fetch(stretch);
        for turn in 0..timed.len() {
            // Every second round in reverse, as an earlier one warms up for a later.
            let at = if round % 2 == 0 {
                turn
            } else {
                timed.len() - 1 - turn
            };
            let count = if at == timed.len() - 1 {
                (stretch.len() + 9) / 10
            } else {
                stretch.len()
            };
            times[at].push(time(timed[at], &stretch[..count], &mut out));
        }
    }
    times
}

/// The cases of each round.
fn stretches<C: Case>(cases: &[C]) -> Vec<&[C]> {
    let most = cases.iter().map(bytes).max().unwrap_or(1);
    let count = (ROUND_BYTES / most).clamp(1, ROUND_INPUTS);
    cases.chunks(count).collect()
}

fn bytes<C: Case>(case: &C) -> usize {
    case.inputs().iter().map(|list| list.len()).sum()
}

/// Brings the inputs of some cases into the cache.
fn fetch<C: Case>(cases: &[C]) {
    for case in cases {
        for list in case.inputs() {
            black_box(list.iter().step_by(64).fold(0, |sum, byte| sum ^ byte));
        }
    }
}

/// Nanoseconds a call.
fn time<C: Case>(answer: Answer<C>, cases: &[C], out: &mut [u8]) -> f64 {
    let answer = black_box(answer);
    let start = Instant::now();
    for case in cases {
        black_box(answer(case, out));
        black_box(&mut *out);
    }
    start.elapsed().as_nanos() as f64 / cases.len() as f64
}

/// The median, with a digit behind the point where it is small.
fn nanoseconds(times: &[f64]) -> String {
    let median = median(times.to_vec());
    if median < 1_000.0 {
        format!("{median:.1}")
    } else {
        grouped(median)
    }
}

/// A whole number with a comma before each three digits.
pub fn grouped(number: f64) -> String {
    let digits = format!("{number:.0}");
    let mut text = String::new();
    for (at, digit) in digits.chars().enumerate() {
        if at > 0 && (digits.len() - at) % 3 == 0 {
            text.push(',');
        }
        text.push(digit);
    }
    text
}

/// The median of the ratios of each round.
fn ratio(times: &[f64], others: &[f64]) -> f64 {
    median(times.iter().zip(others).map(|(a, b)| a / b).collect())
}

fn median(mut numbers: Vec<f64>) -> f64 {
    numbers.sort_by(f64::total_cmp);
    numbers[numbers.len() / 2]
}
