//! The nanoseconds of updates: of one thread, and of four at once on the same metrics.

use prometheus::{Histogram, HistogramOpts, IntCounter, IntCounterVec, Opts};
use std::thread;
use std::time::Instant;

/// The bounds of the histogram.
const BOUNDS: [u64; 10] = [5, 10, 25, 50, 100, 250, 500, 1_000, 2_500, 5_000];

/// Prints the nanoseconds of an operation: by one thread, the fastest of a hundred batches of a tenth of the rounds, and by four at once,
/// the time until all have ended by the rounds of one.
fn line(name: &str, rounds: u64, operation: impl Fn() + Sync) {
    let each = |start: Instant, rounds: u64| start.elapsed().as_nanos() as f64 / rounds as f64;
    let batch = |rounds: u64| {
        let start = Instant::now();
        (0..rounds).for_each(|_| operation());
        each(start, rounds)
    };
    let alone = (0..100).map(|_| batch((rounds / 10).max(1))).fold(f64::MAX, f64::min);
    println!("{name} 1 {alone:.1}");
    let start = Instant::now();
    thread::scope(|scope| {
        for _thread in 0..4 {
            scope.spawn(|| (0..rounds).for_each(|_| operation()));
        }
    });
    println!("{name} 4 {:.1}", each(start, rounds));
}

/// Prints all lines.
pub fn measure(rounds: u64) {
    let one = IntCounter::new("one_total", "One.").expect("a counter");
    line("inc", rounds, || one.inc());
    let opts = HistogramOpts::new("sizes", "Sizes.").buckets(BOUNDS.map(|it| it as f64).to_vec());
    let sizes = Histogram::with_opts(opts).expect("a histogram");
    line("observe", rounds, || sizes.observe(7.0));
    let family = IntCounterVec::new(Opts::new("ten_total", "Ten."), &["n"]).expect("a family");
    let ten: Vec<IntCounter> = (0..10).map(|n| family.with_label_values(&[&n.to_string()])).collect();
    line("inc_10", rounds / 10, || ten.iter().for_each(|it| it.inc()));
    line("observe_10", rounds / 10, || {
        BOUNDS.iter().for_each(|it| sizes.observe(*it as f64))
    });
}
