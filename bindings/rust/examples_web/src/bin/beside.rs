//! The same work over the crate `prometheus` and over both ways of lending: whether their texts are
//! the same; nanoseconds of calls, the best of 15 turns, as a table; and how many scrapes show what
//! never was. The argument is by how much all is shortened, 1 where there is none.

use prometheus as ours;
use std::error::Error;
use std::hint::black_box;
use std::sync::atomic::{AtomicBool, AtomicU64, Ordering::SeqCst};
use std::sync::Barrier;
use std::thread;
use std::time::{Duration, Instant};

/// The calls that are compared, over one of the three.
struct Work<'a> {
    inc: Box<dyn Fn() + Sync + 'a>,
    inc_other: Box<dyn Fn() + Sync + 'a>,
    labelled: Box<dyn Fn() + Sync + 'a>,
    level: Box<dyn Fn() + Sync + 'a>,
    set: Box<dyn Fn(i64) + Sync + 'a>,
    observe: Box<dyn Fn(u64) + Sync + 'a>,
    text: Box<dyn Fn() -> Option<String> + 'a>,
}

/// The same lines over each crate: what differs is that the peer observes floats.
macro_rules! work {
    ($crate_name:ident, $registry:expr, $float:ty) => {{
        use $crate_name::*;
        let registry = $registry;
        let counter = |name: &str| register_int_counter_with_registry!(name, "C.", registry);
        let (a, b) = (counter("a_total")?, counter("b_total")?);
        for at in 0..32 {
            counter(&format!("c{at}_total"))?.inc();
        }
        let name = "v_total";
        let family = register_int_counter_vec_with_registry!(name, "V.", &["x"], registry)?;
        let level = register_int_gauge_with_registry!("level", "L.", registry)?;
        let set = register_int_gauge_with_registry!("set", "S.", registry)?;
        let bounds: Vec<$float> = (1..=10).map(|it| (it * 100) as $float).collect();
        let opts = HistogramOpts::new("sizes", "S.").buckets(bounds);
        let sizes = register_histogram_with_registry!(opts, registry)?;
        Work {
            inc: Box::new(move || a.inc()),
            inc_other: Box::new(move || b.inc()),
            labelled: Box::new(move || family.with_label_values(&["x"]).inc()),
            level: Box::new(move || level.inc()),
            set: Box::new(move |to| set.set(to)),
            observe: Box::new(move |value| sizes.observe(value as $float)),
            text: Box::new(move || TextEncoder::new().encode_to_string(&registry.gather()).ok()),
        }
    }};
}

/// The best of 15 turns.
fn best(calls: u64, mut call: impl FnMut(u64)) -> f64 {
    let mut turn = || {
        let start = Instant::now();
        (0..calls).for_each(&mut call);
        start.elapsed().as_nanos() as f64 / calls as f64
    };
    (0..15).map(|_| turn()).fold(f64::INFINITY, f64::min)
}

/// The best of 9 rounds of threads that count at once, from the first start to the last end.
fn at_once(threads: usize, calls: u64, call: &(dyn Fn() + Sync)) -> f64 {
    let round = |_| {
        let barrier = Barrier::new(threads);
        let spans: Vec<(Instant, Instant)> = thread::scope(|scope| {
            let work = || {
                barrier.wait();
                let start = Instant::now();
                (0..calls).for_each(|_| call());
                (start, Instant::now())
            };
            let all: Vec<_> = (0..threads).map(|_| scope.spawn(work)).collect();
            all.into_iter().filter_map(|thread| thread.join().ok()).collect()
        });
        let start = spans.iter().map(|span| span.0).min();
        let end = spans.iter().map(|span| span.1).max();
        let span = end.zip(start).map_or(0, |(end, start)| (end - start).as_nanos());
        span as f64 / calls as f64
    };
    (0..9).map(round).fold(f64::INFINITY, f64::min)
}

fn number(text: &str, series: &str) -> Option<i64> {
    let value = |line: &str| line.strip_prefix(series)?.strip_prefix(' ')?.parse().ok();
    text.lines().find_map(value)
}

/// One thread raises `a` and hands over, another raises `b` and hands back. Of how many scrapes how
/// many show that a - b is neither 0 nor 1, and the farthest.
fn impossible(work: &Work, time: Duration) -> (u64, u64, i64) {
    let (ball, stop) = (AtomicU64::new(0), AtomicBool::new(false));
    let play = |own: u64, inc: &(dyn Fn() + Sync)| {
        while !stop.load(SeqCst) {
            if ball.load(SeqCst) % 2 == own {
                inc();
                ball.fetch_add(1, SeqCst);
            } else {
                std::hint::spin_loop();
            }
        }
    };
    let (mut scrapes, mut wrong, mut far) = (0, 0, 0);
    let before = (work.text)().unwrap_or_default();
    let before = number(&before, "a_total").zip(number(&before, "b_total"));
    let before = before.map_or(0, |(a, b)| a - b);
    let (inc, inc_other) = (&*work.inc, &*work.inc_other);
    thread::scope(|scope| {
        scope.spawn(|| play(0, inc));
        scope.spawn(|| play(1, inc_other));
        let start = Instant::now();
        while start.elapsed() < time {
            let Some(text) = (work.text)() else { continue };
            let both = number(&text, "a_total").zip(number(&text, "b_total"));
            let ahead = both.map_or(i64::MAX, |(a, b)| a - b - before);
            scrapes += 1;
            wrong += u64::from(!(0..=1).contains(&ahead));
            far = far.max(ahead.abs());
        }
        stop.store(true, SeqCst);
    });
    (scrapes, wrong, far)
}

type Turn<'a> = Box<dyn Fn(&Work) -> f64 + 'a>;

fn table(all: &[(&str, Work)], part: u64) {
    let rows: [(&str, Turn); 9] = [
        ("`IntCounter::inc`", Box::new(|it| best(1_000_000 / part, |_| (it.inc)()))),
        (
            "`with_label_values(&[..]).inc()`",
            Box::new(|it| best(500_000 / part, |_| (it.labelled)())),
        ),
        ("`IntGauge::inc`", Box::new(|it| best(1_000_000 / part, |_| (it.level)()))),
        ("`IntGauge::set`", Box::new(|it| best(1_000_000 / part, |at| (it.set)(at as i64 % 2)))),
        (
            "`Histogram::observe`, 10 bounds",
            Box::new(|it| best(1_000_000 / part, |_| (it.observe)(black_box(512)))),
        ),
        ("2 threads on one counter, a round", Box::new(|it| at_once(2, 500_000 / part, &*it.inc))),
        ("4 threads on one counter, a round", Box::new(|it| at_once(4, 500_000 / part, &*it.inc))),
        (
            "16 threads on one counter, a round",
            Box::new(|it| at_once(16, 100_000 / part, &*it.inc)),
        ),
        (
            "a scrape of 50 series, its text",
            Box::new(|it| best(2000 / part.min(100), |_| drop(black_box((it.text)())))),
        ),
    ];
    let names: Vec<&str> = all.iter().map(|it| it.0).collect();
    println!("| ns | {} |\n|---|{}", names.join(" | "), "---|".repeat(names.len()));
    for (what, turn) in rows {
        let told: Vec<String> = all.iter().map(|it| format!("{:.1}", turn(&it.1))).collect();
        println!("| {what} | {} |", told.join(" | "));
    }
}

/// The same counts over each: their texts are the same, byte for byte.
fn same_texts(all: &[(&str, Work)]) -> Result<(), Box<dyn Error>> {
    let texts = all.iter().map(|(_, work)| {
        (0..3).for_each(|_| (work.inc)());
        (work.inc_other)();
        (work.labelled)();
        (work.level)();
        (work.set)(-5);
        [0, 100, 101, 5000].into_iter().for_each(|value| (work.observe)(value));
        (work.text)()
    });
    let texts: Vec<Option<String>> = texts.collect();
    let is_same = texts[0].is_some() && texts.iter().all(|text| *text == texts[0]);
    println!("the texts are {}", if is_same { "the same" } else { "not the same" });
    is_same.then_some(()).ok_or_else(|| format!("{texts:#?}").into())
}

fn main() -> Result<(), Box<dyn Error>> {
    let part = std::env::args().nth(1).map_or(Ok(1), |word| word.parse())?;
    let all = [
        ("`prometheus`", work!(peer, peer::Registry::new(), f64)),
        ("striped", work!(ours, ours::Registry::new(), u64)),
        ("tallied", work!(ours, ours::Registry::builder().tallied().build()?, u64)),
    ];
    same_texts(&all)?;
    table(&all, part);
    for (name, work) in &all {
        let (scrapes, wrong, far) = impossible(work, Duration::from_millis(2000 / part.min(20)));
        println!("{name}: of {scrapes} scrapes {wrong} show what never was, the farthest by {far}");
    }
    Ok(())
}
