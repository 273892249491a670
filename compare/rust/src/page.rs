//! The series of a page of several boards: families of counters, of histograms and of gauges with one label, in one registry.

use crate::service::{bound, gather, text};
use prometheus::{Counter, CounterVec, GaugeVec, HistogramOpts, HistogramVec, Opts, Registry};
use std::time::Instant;

/// How many bounds each histogram has.
const BOUNDS: usize = 10;

/// How often each bound of a histogram is observed.
const TIMES: usize = 100;

/// How many families there are of counters, of histograms and of gauges, and how many children each of these has.
#[derive(Clone, Copy)]
pub struct Page {
    counters: (usize, usize),
    histograms: (usize, usize),
    gauges: (usize, usize),
}

/// What one board has, or what 40 boards have.
pub fn of(how: &str) -> Option<Page> {
    match how {
        "one" => Some(Page { counters: (1, 256), histograms: (1, 32), gauges: (1, 64) }),
        "whole" => Some(Page { counters: (40, 250), histograms: (40, 25), gauges: (20, 25) }),
        _ => None,
    }
}

/// The value of the label of a child, of so many. They do not come in the order in which children are made.
fn handler(child: usize, children: usize) -> String {
    format!("/api/v1/{:03}", child * 101 % children)
}

/// What is counted of a child.
fn amount(family: usize, child: usize) -> f64 {
    (10_007 * (family % 32) + 1_009 * (child % 256 + 1)) as f64
}

/// A family of counters.
fn counters(family: usize, children: usize) -> prometheus::Result<CounterVec> {
    let (name, help) = (
        format!("requests_{family:02}_total"),
        format!("Requests answered so far by service part {family:02}."),
    );
    let made = CounterVec::new(Opts::new(name, help), &["handler"])?;
    for child in 0..children {
        made.with_label_values(&[&handler(child, children)]);
    }
    Ok(made)
}

/// A family of histograms.
fn histograms(family: usize, children: usize) -> prometheus::Result<HistogramVec> {
    let (name, help) = (
        format!("response_{family:02}_micros"),
        format!("Microseconds taken by answers of part {family:02}."),
    );
    let opts = HistogramOpts::new(name, help).buckets((0..BOUNDS).map(bound).collect());
    let made = HistogramVec::new(opts, &["handler"])?;
    for child in 0..children {
        made.with_label_values(&[&handler(child, children)]);
    }
    Ok(made)
}

/// A family of gauges.
fn gauges(family: usize, children: usize) -> prometheus::Result<GaugeVec> {
    let (name, help) = (
        format!("waiting_{family:02}"),
        format!("Requests that wait at service part {family:02}."),
    );
    let made = GaugeVec::new(Opts::new(name, help), &["handler"])?;
    for child in 0..children {
        made.with_label_values(&[&handler(child, children)]);
    }
    Ok(made)
}

/// All families of a page.
struct Families {
    registry: Registry,
    counters: Vec<CounterVec>,
    histograms: Vec<HistogramVec>,
    gauges: Vec<GaugeVec>,
}

impl Families {
    /// Registers the families of this number, with their children.
    fn add(&mut self, page: Page, number: usize) -> prometheus::Result<()> {
        if number < page.counters.0 {
            let made = counters(number, page.counters.1)?;
            self.registry.register(Box::new(made.clone()))?;
            self.counters.push(made);
        }
        if number < page.histograms.0 {
            let made = histograms(number, page.histograms.1)?;
            self.registry.register(Box::new(made.clone()))?;
            self.histograms.push(made);
        }
        if number < page.gauges.0 {
            let made = gauges(number, page.gauges.1)?;
            self.registry.register(Box::new(made.clone()))?;
            self.gauges.push(made);
        }
        Ok(())
    }

    /// Registers all.
    fn new(page: Page) -> prometheus::Result<Families> {
        let mut families = Families { registry: Registry::new(), counters: vec![], histograms: vec![], gauges: vec![] };
        for number in 0..page.counters.0 {
            families.add(page, number)?;
        }
        Ok(families)
    }

    /// Counts all: each bound of a histogram 100 times.
    fn count(&self, page: Page) {
        for (family, made) in self.counters.iter().enumerate() {
            for child in 0..page.counters.1 {
                made.with_label_values(&[&handler(child, page.counters.1)]).inc_by(amount(family, child));
            }
        }
        for (family, made) in self.gauges.iter().enumerate() {
            for child in 0..page.gauges.1 {
                made.with_label_values(&[&handler(child, page.gauges.1)]).add(amount(family, child));
            }
        }
        for made in &self.histograms {
            for child in 0..page.histograms.1 {
                let histogram = made.with_label_values(&[&handler(child, page.histograms.1)]);
                (0..BOUNDS * TIMES).for_each(|at| histogram.observe(bound(at % BOUNDS)));
            }
        }
    }
}

/// Prints the nanoseconds of one of 4,000 increments of these counters in turn, in the fastest of a hundred batches.
fn in_turn(name: &str, counters: &[Counter]) {
    const ROUNDS: usize = 4_000;
    let batch = || {
        let start = Instant::now();
        counters.iter().cycle().take(ROUNDS).for_each(Counter::inc);
        start.elapsed().as_nanos() as f64 / ROUNDS as f64
    };
    println!("{name} {:.2}", (0..100).map(|_| batch()).fold(f64::MAX, f64::min));
}

/// Prints the nanoseconds of registering a page, those of so many scrapes with their texts, the least and the median, how many bytes the text
/// has, and those of an increment of one counter, and of one of each family in turn; or one text, where there are no scrapes to make.
pub fn measure(page: Page, scrapes: usize) {
    let start = Instant::now();
    let families = Families::new(page).expect("names of their own");
    let registered = start.elapsed().as_nanos();
    families.count(page);
    if scrapes == 0 {
        print!("{}", text(&families.registry));
        return;
    }
    let mut times: Vec<u128> = (0..scrapes)
        .map(|_| {
            let start = Instant::now();
            std::hint::black_box(gather(&families.registry));
            start.elapsed().as_nanos()
        })
        .collect();
    times.sort_unstable();
    println!("register {registered}");
    println!("gather {} {}", times[0], times[scrapes / 2]);
    println!("bytes {}", gather(&families.registry).len());
    let first = handler(0, page.counters.1);
    let firsts: Vec<Counter> = families.counters.iter().map(|it| it.with_label_values(&[&first])).collect();
    in_turn("inc", &firsts[..1]);
    in_turn("inc_in_turn", &firsts);
}
