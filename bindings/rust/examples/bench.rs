//! Nanoseconds of a call, for both ways of lending: the best and the median of 15 turns. The
//! argument is by how much the turns are shortened, 1 where there is none.

use dirgwako::*;
use std::hint::black_box;
use std::sync::Barrier;
use std::time::Instant;

/// The best and the median of these turns.
fn tell(way: &str, what: &str, mut turns: Vec<f64>) {
    turns.sort_by(f64::total_cmp);
    println!("{way}: {what}: {:.1} ({:.1}) ns", turns[0], turns[turns.len() / 2]);
}

fn turns(way: &str, what: &str, calls: u64, mut call: impl FnMut()) {
    let mut turn = || {
        let start = Instant::now();
        (0..calls).for_each(|_| call());
        start.elapsed().as_nanos() as f64 / calls as f64
    };
    tell(way, what, (0..15).map(|_| turn()).collect());
}

/// A round of threads that count at once: from the first start to the last end, by the calls of
/// one.
fn at_once(way: &str, threads: usize, calls: u64, counter: &IntCounter) {
    let turn = |_| {
        let barrier = Barrier::new(threads);
        let spans: Vec<(Instant, Instant)> = std::thread::scope(|scope| {
            let work = || {
                barrier.wait();
                let start = Instant::now();
                (0..calls).for_each(|_| counter.inc());
                (start, Instant::now())
            };
            let all: Vec<_> = (0..threads).map(|_| scope.spawn(work)).collect();
            all.into_iter().filter_map(|thread| thread.join().ok()).collect()
        });
        let start = spans.iter().map(|span| span.0).min();
        let end = spans.iter().map(|span| span.1).max();
        let span = end.zip(start).map_or(0, |(end, start)| (end - start).as_nanos());
        span as f64 / calls as f64
    };
    tell(
        way,
        &format!("{threads} threads, inc of one counter, a round"),
        (0..9).map(turn).collect(),
    );
}

fn counts(way: &str, registry: &Registry, part: u64) -> Result<()> {
    let counter = |name: String| register_int_counter_with_registry!(name, "Counted.", registry);
    let a = counter("a_total".into())?;
    turns(way, "inc", 1_000_000 / part, || a.inc());
    let many: Result<Vec<IntCounter>> = (0..32).map(|at| counter(format!("a{at}_total"))).collect();
    let many = many?;
    let mut at = 0;
    turns(way, "inc of 32 counters in turn", 1_000_000 / part, || {
        many[at % 32].inc();
        at += 1;
    });
    let family = register_int_counter_vec_with_registry!("v_total", "By x.", &["x"], registry)?;
    let labelled = || family.with_label_values(&["x"]).inc();
    turns(way, "with_label_values and inc", 500_000 / part, labelled);
    turns(way, "publish of two counters", 500_000 / part, || {
        let version = |batch: &mut Batch| {
            batch.inc(&a);
            batch.inc(&many[0]);
        };
        let _ = registry.publish(version);
    });
    turns(way, "publish of ten counters", 200_000 / part, || {
        let _ = registry.publish(|batch| many[..10].iter().for_each(|it| batch.inc(it)));
    });
    let local = a.local();
    turns(way, "inc of a local counter", 2_000_000 / part, || local.inc());
    drop(local);
    for threads in [2, 4] {
        at_once(way, threads, 500_000 / part, &a);
    }
    Ok(())
}

fn others(way: &str, registry: &Registry, part: u64) -> Result<()> {
    let level = register_int_gauge_with_registry!("level", "A level.", registry)?;
    turns(way, "inc of a gauge", 1_000_000 / part, || level.inc());
    let mut to = 0;
    turns(way, "set of a gauge", 1_000_000 / part, || {
        to ^= 1;
        level.set(to);
    });
    turns(way, "inc of a gauge that was set", 1_000_000 / part, || level.inc());
    let opts = HistogramOpts::new("sizes", "Sizes.").buckets(linear_buckets(100, 100, 10)?);
    let sizes = register_histogram_with_registry!(opts, registry)?;
    let observe = || sizes.observe(black_box(512));
    turns(way, "observe, 10 bounds", 1_000_000 / part, observe);
    let timer = || sizes.start_timer().observe_duration();
    turns(way, "start_timer and observe_duration", 500_000 / part, timer);
    turns(way, "get of a counter or a histogram", 2000 / part, || {
        black_box(sizes.get_sample_count());
    });
    turns(way, "gather_text of 50 series", 2000 / part, || {
        let _ = black_box(registry.gather_text());
    });
    Ok(())
}

fn main() -> Result<()> {
    let part = std::env::args().nth(1).and_then(|word| word.parse().ok()).unwrap_or(1);
    let ways = [("striped", Registry::new()), ("tallied", Registry::builder().tallied().build()?)];
    for (way, registry) in ways {
        counts(way, &registry, part)?;
        others(way, &registry, part)?;
    }
    Ok(())
}
