//! The services that are scraped and served: families of counters, and then families of histograms, of eight children each.

use prometheus::{CounterVec, Encoder, HistogramOpts, HistogramVec, Opts, Registry, TextEncoder};
use std::time::Instant;

/// How many children each family has.
const CHILDREN: usize = 8;

/// How often each bound of a histogram is observed.
const TIMES: usize = 1_000;

/// How many families of counters a service has, how many of histograms, and how many bounds each histogram has.
#[derive(Clone, Copy)]
pub struct Service(usize, usize, usize);

/// 64 counters, and 8 histograms of 10 bounds; or 256, and 32 of 24 bounds.
pub fn of(size: &str) -> Option<Service> {
    match size {
        "small" => Some(Service(8, 1, 10)),
        "large" => Some(Service(32, 4, 24)),
        _ => None,
    }
}

/// The bound at a place: they are 5, 10, 25, 50, 100, 250 and so on.
pub fn bound(place: usize) -> f64 {
    (0..place / 3).fold([5.0, 10.0, 25.0][place % 3], |bound: f64, _| bound * 10.0)
}

/// The value of the label of a child.
fn handler(child: usize) -> String {
    format!("/api/v1/{child}")
}

/// A family of counters, counted.
fn counters(family: usize) -> prometheus::Result<CounterVec> {
    let (name, help) = (
        format!("requests_{family:02}_total"),
        format!("Requests answered so far by service part {family:02}."),
    );
    let made = CounterVec::new(Opts::new(name, help), &["handler"])?;
    for child in 0..CHILDREN {
        let by = 10_007 * (family % 32) + 1_009 * (child + 1);
        made.with_label_values(&[&handler(child)]).inc_by(by as f64);
    }
    Ok(made)
}

/// A family of histograms, counted.
fn histograms(family: usize, bounds: usize) -> prometheus::Result<HistogramVec> {
    let (name, help) = (
        format!("response_{family:02}_micros"),
        format!("Microseconds taken by answers of part {family:02}."),
    );
    let opts = HistogramOpts::new(name, help).buckets((0..bounds).map(bound).collect());
    let made = HistogramVec::new(opts, &["handler"])?;
    for child in 0..CHILDREN {
        let histogram = made.with_label_values(&[&handler(child)]);
        for observed in 0..bounds * TIMES {
            histogram.observe(bound(observed % bounds));
        }
    }
    Ok(made)
}

impl Service {
    /// A registry of it.
    pub fn registry(self) -> Registry {
        let registry = Registry::new();
        for family in 0..self.0 {
            let made = counters(family).expect("a family of counters");
            registry.register(Box::new(made)).expect("a name of its own");
        }
        for family in 0..self.1 {
            let made = histograms(family, self.2).expect("a family of histograms");
            registry.register(Box::new(made)).expect("a name of its own");
        }
        registry
    }
}

/// The bytes of a scrape.
pub fn gather(registry: &Registry) -> Vec<u8> {
    let mut text = Vec::new();
    TextEncoder::new().encode(&registry.gather(), &mut text).expect("a text");
    text
}

/// The text of a scrape.
pub fn text(registry: &Registry) -> String {
    String::from_utf8(gather(registry)).expect("a text of UTF-8")
}

/// Prints the nanoseconds of a scrape with its text: the fastest of a hundred batches of a tenth of the rounds.
pub fn measure(service: Service, rounds: u64) {
    let (registry, rounds) = (service.registry(), (rounds / 10).max(1));
    let mut least = f64::MAX;
    for _batch in 0..100 {
        let (start, mut bytes) = (Instant::now(), 0);
        for _round in 0..rounds {
            bytes += std::hint::black_box(gather(&registry)).len();
        }
        assert!(bytes > 0);
        least = least.min(start.elapsed().as_nanos() as f64 / rounds as f64);
    }
    println!("{least:.0}");
}
