//! Hours that the engine settles a second, on one thread and on all cores.

use crate::hour::{Family, Hour};
use crate::timing::{grouped, Case, INPUTS};
use std::hint::black_box;
use std::thread;
use std::time::{Duration, Instant};

const COUNTED: Duration = Duration::from_millis(500);

pub fn print(families: &[Family]) {
    let cores = thread::available_parallelism().map_or(1, usize::from);
    let files = grouped(INPUTS as f64);
    println!(
        "
Hours a second, the engine alone. Each thread goes through all {files} files over and over,
with output lists of its own."
    );
    let threads = format!("{cores} threads");
    println!("{:52}{:>12}{threads:>14}", "", "1 thread");
    for (name, hours) in families {
        let [one, all] = [1, cores].map(|threads| grouped(rate_of(threads, hours)));
        println!("  {name:50}{one:>12}{all:>14}");
    }
}

/// Hours a second of some threads together. Each begins with another file.
fn rate_of(threads: usize, hours: &[Hour]) -> f64 {
    thread::scope(|scope| {
        let running: Vec<_> = (0..threads)
            .map(|at| scope.spawn(move || rate(hours, at * hours.len() / threads)))
            .collect();
        let rates = running.into_iter().map(|thread| thread.join().unwrap());
        rates.sum()
    })
}

fn rate(hours: &[Hour], first: usize) -> f64 {
    let mut out = vec![0; hours[0].out_len()];
    let (later, sooner) = hours.split_at(first);
    let mut passes = 0;
    let start = Instant::now();
    while start.elapsed() < COUNTED {
        for hour in sooner.iter().chain(later) {
            black_box(hour.engine(&mut out));
            black_box(&mut out);
        }
        passes += 1;
    }
    (passes * hours.len()) as f64 / start.elapsed().as_secs_f64()
}
