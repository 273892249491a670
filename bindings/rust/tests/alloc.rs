//! An allocator that counts: what takes memory or gives it back within a count, or while a scrape
//! holds the tallies, would wait for its own thread.

use dirgwako::*;
use std::alloc::{GlobalAlloc, Layout, System};
use std::sync::atomic::{AtomicUsize, Ordering::SeqCst};
use std::sync::{mpsc, OnceLock};
use std::thread;
use std::time::Duration;

struct Counting;

/// Which of the counters counts; none is the number of all.
static NOW: AtomicUsize = AtomicUsize::new(usize::MAX);
static COUNTERS: [OnceLock<(IntCounter, IntGauge, Histogram)>; 2] =
    [OnceLock::new(), OnceLock::new()];

fn count(bytes: usize, by: i64) {
    if let Some((calls, live, sizes)) = COUNTERS.get(NOW.load(SeqCst)).and_then(OnceLock::get) {
        calls.inc();
        live.add(by);
        sizes.observe(bytes as u64);
    }
}

// SAFETY: the system's allocator does it.
unsafe impl GlobalAlloc for Counting {
    unsafe fn alloc(&self, layout: Layout) -> *mut u8 {
        count(layout.size(), 1);
        // SAFETY: as this call.
        unsafe { System.alloc(layout) }
    }

    unsafe fn dealloc(&self, at: *mut u8, layout: Layout) {
        count(layout.size(), -1);
        // SAFETY: as this call.
        unsafe { System.dealloc(at, layout) }
    }
}

#[global_allocator]
static ALLOCATOR: Counting = Counting;

/// Threads that allocate, register, publish and scrape.
fn work(at: usize, registry: &Registry) {
    let opts = HistogramOpts::new("bytes", "Bytes.").buckets(vec![64, 4096]);
    let metrics = (
        register_int_counter_with_registry!("calls_total", "Calls.", registry).unwrap(),
        register_int_gauge_with_registry!("live", "Blocks.", registry).unwrap(),
        register_histogram_with_registry!(opts, registry).unwrap(),
    );
    COUNTERS[at].set(metrics.clone()).unwrap();
    NOW.store(at, SeqCst);
    thread::scope(|scope| {
        for own in 0..20 {
            let metrics = &metrics;
            scope.spawn(move || {
                let bytes: usize = (1..200).map(|len| vec![0u8; len].len()).sum();
                assert_eq!(bytes, 19_900);
                let name = format!("own{own}_total");
                let own = register_int_counter_with_registry!(name, "Own.", registry).unwrap();
                registry.publish(|batch| batch.inc(&own)).unwrap();
                assert!(registry.gather_text().unwrap().contains("calls_total"));
                assert!(metrics.0.get() > 0 && own.get() == 1);
            });
        }
        // Boards that come meanwhile: each tally grows.
        let opts = HistogramOpts::new("sizes", "Sizes.").buckets(vec![1]);
        let sizes = register_histogram_vec_with_registry!(opts, &["at"], registry).unwrap();
        let mut at = 0;
        while registry.boards() < 3 {
            sizes.with_label_values(&[&at.to_string()]).observe(at);
            at += 1;
        }
    });
    NOW.store(usize::MAX, SeqCst);
    assert_eq!(registry.refused(), 0);
    assert!(metrics.0.get() >= 20 * 2 * 199);
    assert_eq!(metrics.2.get_sample_count(), metrics.0.get());
}

/// Both ways of lending, and a watch over them: a thread that waits for itself ends the test, not
/// the patience of who runs it.
#[test]
fn an_allocator_that_counts() {
    let (done, ended) = mpsc::channel();
    let worker = thread::spawn(move || {
        work(0, &Registry::new());
        work(1, &Registry::builder().tallied().build().unwrap());
        done.send(()).unwrap();
    });
    if ended.recv_timeout(Duration::from_secs(60)) == Err(mpsc::RecvTimeoutError::Timeout) {
        NOW.store(usize::MAX, SeqCst);
        eprintln!("a count waits for its own thread");
        std::process::abort();
    }
    worker.join().unwrap();
}
