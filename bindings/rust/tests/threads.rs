//! Threads that come and go, many at once: nothing is lost, and nothing panics.

mod shared;

use dirgwako::*;
use shared::{both, counter, gauge, number};
use std::cell::RefCell;
use std::collections::VecDeque;
use std::sync::atomic::{AtomicBool, AtomicU64, AtomicUsize, Ordering::SeqCst};
use std::sync::{Barrier, Mutex};
use std::thread;

/// A thousand threads, 25 of them alive at once, which are more than there are recorders: a count
/// that went nowhere, or twice, would show.
#[test]
fn a_thousand_threads() {
    for (way, registry) in both() {
        let (a, b) = (counter(&registry, "a_total"), counter(&registry, "b_total"));
        let level = gauge(&registry, "level");
        for _ in 0..40 {
            let at_once = Barrier::new(25);
            thread::scope(|scope| {
                for _ in 0..25 {
                    scope.spawn(|| {
                        at_once.wait();
                        for _ in 0..500 {
                            a.inc();
                            level.add(3);
                            level.dec();
                        }
                        for _ in 0..50 {
                            let both = |batch: &mut Batch| {
                                batch.inc(&a);
                                batch.inc_by(&b, 2);
                            };
                            registry.publish(both).unwrap();
                        }
                    });
                }
            });
        }
        let text = registry.gather_text().unwrap();
        let told = ["a_total", "b_total", "level"].map(|series| number(&text, series));
        assert_eq!(told, [550_000, 100_000, 1_000_000], "{way}");
        let read = (a.get(), b.get(), level.get(), registry.refused());
        assert_eq!(read, (550_000, 100_000, 1_000_000, 0), "{way}");
    }
}

/// Tells threads to stop, at its end, also where a test fails.
struct Stops<'a>(&'a AtomicBool);

impl Drop for Stops<'_> {
    fn drop(&mut self) {
        self.0.store(true, SeqCst);
    }
}

/// One thread raises a and hands over, another raises b and hands back: at each moment a is b, or
/// one more. A scrape that read the two at two moments, or that missed a tally, would show
/// something else.
#[test]
fn ping_pong() {
    for (way, registry) in both() {
        let (a, b) = (counter(&registry, "a_total"), counter(&registry, "b_total"));
        let (ball, stop) = (AtomicU64::new(0), AtomicBool::new(false));
        let play = |own: u64, raised: &IntCounter| {
            while !stop.load(SeqCst) {
                if ball.load(SeqCst) % 2 == own {
                    raised.inc();
                    ball.fetch_add(1, SeqCst);
                } else {
                    std::hint::spin_loop();
                }
            }
        };
        let scrapes = 10_000;
        thread::scope(|scope| {
            scope.spawn(|| play(0, &a));
            scope.spawn(|| play(1, &b));
            let _players = Stops(&stop);
            let mut seen = 0;
            while seen < scrapes {
                let text = registry.gather_text().unwrap();
                let ahead = number(&text, "a_total") - number(&text, "b_total");
                assert!((0..=1).contains(&ahead), "{way}: {text}");
                seen += 1;
            }
        });
        assert_eq!(a.get() + b.get(), ball.into_inner(), "{way}");
    }
}

/// Counts while its thread's own values are dropped.
struct Late(IntCounter);

impl Drop for Late {
    fn drop(&mut self) {
        self.0.inc_by(10);
    }
}

thread_local! {
    static BEFORE: RefCell<Option<Late>> = const { RefCell::new(None) };
    static AFTER: RefCell<Option<Late>> = const { RefCell::new(None) };
}

/// Counts of a thread that ends: from destructors of thread-locals that are older and newer than
/// its first count.
#[test]
fn counts_of_destructors() {
    for (way, registry) in both() {
        let a = counter(&registry, "a_total");
        for _ in 0..50 {
            let a = a.clone();
            let thread = thread::spawn(move || {
                BEFORE.set(Some(Late(a.clone())));
                (0..100).for_each(|_| a.inc());
                AFTER.set(Some(Late(a.clone())));
            });
            thread.join().unwrap();
        }
        assert_eq!((a.get(), registry.refused()), (50 * 120, 0), "{way}");
    }
}

/// Threads that panic, also within a version: what they counted stays, the version is not
/// published, and others count on.
#[test]
fn panics() {
    for (way, registry) in both() {
        let a = counter(&registry, "a_total");
        for _ in 0..20 {
            let (a, registry) = (a.clone(), registry.clone());
            let thread = thread::spawn(move || {
                (0..100).for_each(|_| a.inc());
                let _ = registry.publish(|batch| {
                    batch.inc_by(&a, 1_000_000);
                    panic!("within a version");
                });
            });
            assert!(thread.join().is_err());
        }
        a.inc();
        assert_eq!(a.get(), 2001, "{way}");
    }
}

/// A job that goes to another thread in the middle, as a task of an executor does.
struct Task {
    steps: u32,
    timer: Option<HistogramTimer>,
}

/// Tasks that hop between threads, with a timer that was started on another one.
#[test]
fn tasks_that_hop() {
    for (way, registry) in both() {
        let a = counter(&registry, "a_total");
        let opts = HistogramOpts::new("step_seconds", "Steps.");
        let steps = register_histogram_with_registry!(opts, registry).unwrap();
        let fresh = || Task { steps: 200, timer: None };
        let queue: Mutex<VecDeque<Task>> = Mutex::new((0..64).map(|_| fresh()).collect());
        let left = AtomicUsize::new(64);
        thread::scope(|scope| {
            for _ in 0..8 {
                scope.spawn(|| {
                    while left.load(SeqCst) > 0 {
                        let next = queue.lock().unwrap().pop_front();
                        let Some(mut task) = next else {
                            thread::yield_now();
                            continue;
                        };
                        drop(task.timer.take());
                        if task.steps == 0 {
                            left.fetch_sub(1, SeqCst);
                            continue;
                        }
                        a.inc();
                        task.steps -= 1;
                        task.timer = Some(steps.start_timer());
                        queue.lock().unwrap().push_back(task);
                    }
                });
            }
        });
        assert_eq!((a.get(), steps.get_sample_count()), (64 * 200, 64 * 200), "{way}");
    }
}

/// Registries that come and go under threads that stay, beside registries that stay.
#[test]
fn registries_that_come_and_go() {
    let kept: Vec<Registry> = both().into_iter().map(|it| it.1).collect();
    let counters: Vec<IntCounter> = kept.iter().map(|it| counter(it, "a_total")).collect();
    thread::scope(|scope| {
        for _ in 0..8 {
            scope.spawn(|| {
                (0..4000).for_each(|turn| counters[turn % 2].inc());
                for (way, own) in both() {
                    let a = counter(&own, "a_total");
                    (0..50).for_each(|_| a.inc());
                    // The counter outlives the program's own handle of its registry.
                    drop(own);
                    assert_eq!(a.get(), 50, "{way}");
                }
            });
        }
    });
    assert_eq!((counters[0].get(), counters[1].get()), (16_000, 16_000));
}

/// Metrics that four threads count with while a fifth registers them: what was counted before is
/// there, and nothing twice.
#[test]
fn counted_while_it_is_registered() {
    for turn in 0..10 {
        for (way, registry) in both() {
            let a = IntCounter::new("a_total", "A.").unwrap();
            let family = IntCounterVec::new(Opts::new("v_total", "V."), &["x"]).unwrap();
            let level = IntGauge::new("level", "Level.").unwrap();
            let sizes = HistogramOpts::new("sizes", "Sizes.").buckets(vec![1, 5]);
            let sizes = Histogram::with_opts(sizes).unwrap();
            thread::scope(|scope| {
                for _ in 0..4 {
                    scope.spawn(|| {
                        for turn in 0..1000 {
                            a.inc();
                            family.with_label_values(&[["0", "1"][turn % 2]]).inc();
                            level.add(2);
                            level.dec();
                            sizes.observe(turn as u64 % 8);
                        }
                    });
                }
                (0..turn).for_each(|_| thread::yield_now());
                registry.register(Box::new(a.clone())).unwrap();
                registry.register(Box::new(family.clone())).unwrap();
                registry.register(Box::new(level.clone())).unwrap();
                registry.register(Box::new(sizes.clone())).unwrap();
            });
            let text = registry.gather_text().unwrap();
            let series = ["a_total", "v_total{x=\"0\"}", "v_total{x=\"1\"}", "level"];
            assert_eq!(series.map(|it| number(&text, it)), [4000, 2000, 2000, 4000], "{way}");
            let series =
                ["sizes_bucket{le=\"1\"}", "sizes_bucket{le=\"5\"}", "sizes_count", "sizes_sum"];
            assert_eq!(series.map(|it| number(&text, it)), [1000, 3000, 4000, 14_000], "{way}");
            assert_eq!(level.get(), 4000, "{way}");
        }
    }
}
