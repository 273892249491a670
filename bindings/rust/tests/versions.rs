//! Several changes as one version: all or nothing, in each scrape.

mod shared;

use dirgwako::*;
use shared::{both, counter, gauge, number};
use std::sync::atomic::{AtomicBool, Ordering::SeqCst};
use std::thread;

/// Runs threads that publish, and looks at each scrape meanwhile.
fn beside(registry: &Registry, publish: impl Fn(u64) + Sync, look: impl Fn(&str)) {
    let running = AtomicBool::new(true);
    thread::scope(|scope| {
        let all: Vec<_> = (0..4).map(|_| scope.spawn(|| (0..5000).for_each(&publish))).collect();
        let ends = scope.spawn(|| {
            all.into_iter().for_each(|thread| thread.join().unwrap());
            running.store(false, SeqCst);
        });
        while running.load(SeqCst) {
            look(&registry.gather_text().unwrap());
        }
        ends.join().unwrap();
    });
}

/// A counter, another one, a gauge and a histogram in one version: a scrape that had some of it
/// alone would show a difference.
#[test]
fn all_or_nothing() {
    for (way, registry) in both() {
        let (a, b) = (counter(&registry, "a_total"), counter(&registry, "b_total"));
        let level = gauge(&registry, "level");
        let opts =
            HistogramOpts::new("sizes", "Sizes.").buckets(linear_buckets(1000, 1000, 4).unwrap());
        let sizes = register_histogram_with_registry!(opts, registry).unwrap();
        let publish = |turn: u64| {
            let version = |batch: &mut Batch| {
                batch.inc_by(&a, turn);
                batch.inc_by(&b, 2 * turn);
                batch.observe(&sizes, turn);
                batch.add(&level, turn as i64 + 7);
                batch.sub(&level, 7);
            };
            registry.publish(version).unwrap();
        };
        beside(&registry, publish, |text| {
            let all = ["a_total", "b_total", "sizes_sum", "level"].map(|it| number(text, it));
            assert_eq!(all, [all[0], 2 * all[0], all[0], all[0]], "{way}");
            let counts = ["sizes_count", "sizes_bucket{le=\"+Inf\"}"].map(|it| number(text, it));
            assert_eq!(counts[0], counts[1], "{way}");
        });
        let sum = 4 * (4999 * 5000 / 2);
        assert_eq!((a.get(), b.get(), level.get()), (sum, 2 * sum, sum as i64), "{way}");
        assert_eq!((sizes.get_sample_sum(), sizes.get_sample_count()), (sum, 20_000), "{way}");
    }
}

/// Gauges that are set in versions: their sum is always the same, from whichever side two threads
/// move them.
#[test]
fn gauges_that_are_set_together() {
    for (way, registry) in both() {
        let (left, right) = (gauge(&registry, "left"), gauge(&registry, "right"));
        let first = |batch: &mut Batch| {
            batch.set(&left, 1000);
            batch.set(&right, 1000);
        };
        registry.publish(first).unwrap();
        let publish = |turn: u64| {
            let by = turn as i64 % 100;
            let version = |batch: &mut Batch| {
                batch.add(&left, by);
                batch.sub(&right, by);
            };
            registry.publish(version).unwrap();
        };
        beside(&registry, publish, |text| {
            let sum = number(text, "left") + number(text, "right");
            assert_eq!(sum, 2000, "{way}");
        });
        assert_eq!(left.get(), 1000 + 4 * 50 * 4950, "{way}");
        assert_eq!(left.get() + right.get(), 2000, "{way}");
    }
}

/// What is refused has changed nothing, and the error says what it was.
#[test]
fn refused_whole() {
    for (way, registry) in both() {
        let (a, b) = (counter(&registry, "a_total"), counter(&registry, "b_total"));
        let level = gauge(&registry, "level");
        level.add(5);
        let version = |batch: &mut Batch| {
            batch.inc(&b);
            batch.add(&level, 1);
            batch.inc_by(&a, 1 << 48);
        };
        let error = registry.publish(version).unwrap_err();
        assert_eq!(error.number(), Some(12), "{way}");
        let other = counter(&Registry::new(), "other_total");
        let error = registry.publish(|batch| batch.inc(&other)).unwrap_err();
        assert_eq!((error.number(), error.name()), (Some(16), Some("other_total")), "{way}");
        let free = IntCounter::new("free_total", "Free.").unwrap();
        let version = |batch: &mut Batch| {
            batch.inc(&a);
            batch.inc(&free);
        };
        let error = registry.publish(version).unwrap_err();
        assert!(matches!(&error, Error::NotRegistered { name } if name == "free_total"), "{way}");
        assert_eq!((a.get(), b.get(), level.get(), free.get()), (0, 0, 5, 0), "{way}");
        assert_eq!(registry.refused(), 0, "{way}: what says so itself is not counted");
    }
}

/// Changes of two boards are no version, and the error names both metrics. One group keeps metrics
/// together.
#[test]
fn two_boards() {
    for (way, registry) in both() {
        let sizes = HistogramOpts::new("sizes", "Sizes.").buckets(vec![1]);
        let sizes = register_histogram_vec_with_registry!(sizes, &["x"], registry).unwrap();
        let first = sizes.with_label_values(&["0"]);
        let mut last = first.clone();
        for at in 0.. {
            last = sizes.with_label_values(&[&at.to_string()]);
            if registry.boards() == 2 {
                break;
            }
        }
        let version = |batch: &mut Batch| {
            batch.observe(&first, 1);
            batch.observe(&last, 1);
        };
        let error = registry.publish(version).unwrap_err();
        assert_eq!((error.number(), error.name()), (Some(47), Some("sizes")), "{way}");
        assert!(error.to_string().contains("one group"), "{way}: {error}");
        assert_eq!((first.get_sample_count(), last.get_sample_count()), (0, 0), "{way}");
        let group = |name: &str| {
            let opts = Opts::new(name, "Of a group.").group(7);
            register_int_counter_with_registry!(opts, registry).unwrap()
        };
        let (a, b) = (group("a_total"), group("b_total"));
        let version = |batch: &mut Batch| {
            batch.inc(&a);
            batch.inc(&b);
        };
        registry.publish(version).unwrap();
        assert_eq!((a.get(), b.get()), (1, 1), "{way}");
        last.observe(1);
        assert_eq!(last.get_sample_count(), 1, "{way}");
    }
}

/// As many changes as the library takes, and one more (33); changes of one number join.
#[test]
fn many_changes() {
    for (way, registry) in both() {
        let a = counter(&registry, "a_total");
        let opts = HistogramOpts::new("sizes", "Sizes.").buckets(vec![10]);
        let sizes = register_histogram_with_registry!(opts, registry).unwrap();
        registry.publish(|batch| (0..1000).for_each(|_| batch.inc(&a))).unwrap();
        assert_eq!(a.get(), 1000, "{way}");
        let observe = |many: u64| {
            registry.publish(|batch| (0..many).for_each(|it| batch.observe(&sizes, it)))
        };
        let mut most = 0;
        let refused = (1..).find_map(|many| match observe(many) {
            Ok(()) => {
                most = many;
                None
            }
            Err(error) => error.number(),
        });
        assert_eq!((refused, sizes.get_sample_count()), (Some(33), most * (most + 1) / 2), "{way}");
        assert_eq!(registry.publish(|_| 5).unwrap(), 5, "{way}: no change is no version");
    }
}

/// Metrics of one thread are seen where they are flushed, and when they end.
#[test]
fn local_metrics() {
    for (way, registry) in both() {
        let a = counter(&registry, "a_total");
        let local = a.local();
        local.inc();
        local.inc_by(4);
        assert_eq!((local.get(), a.get()), (5, 0), "{way}");
        local.flush();
        local.inc();
        drop(local);
        assert_eq!(a.get(), 6, "{way}");
        let opts = HistogramOpts::new("sizes", "Sizes.").buckets(vec![10]);
        let sizes = register_histogram_with_registry!(opts, registry).unwrap();
        let local = sizes.local();
        (0..150).for_each(|it| local.observe(it));
        assert_eq!((sizes.get_sample_count(), local.get_sample_count()), (128, 22), "{way}");
        local.clear();
        local.start_timer().observe_duration();
        drop(local);
        assert_eq!(sizes.get_sample_count(), 129, "{way}");
        let opts = Opts::new("answers_total", "Answers.");
        let answers = register_int_counter_vec_with_registry!(opts, &["code"], registry).unwrap();
        let mut local = answers.local();
        local.with_label_values(&["200"]).inc_by(2);
        local.with_label_values(&["200"]).inc();
        local.with_label_values(&["404"]).inc();
        local.flush();
        assert_eq!(answers.with_label_values(&["200"]).get(), 3, "{way}");
        local.with_label_values(&["404"]).inc();
        local.remove_label_values(&["404"]).unwrap();
        assert!(local.remove_label_values(&["404"]).is_err(), "{way}");
        assert_eq!(answers.with_label_values(&["404"]).get(), 2, "{way}");
    }
}

/// A number that is full (2^48 - 1 in a recorder): the next is refused and told, also where it
/// waits in a tally, and a version with it is refused whole.
#[test]
fn the_end_of_a_number() {
    for (way, registry) in both() {
        let (full, free) = (counter(&registry, "full_total"), counter(&registry, "free_total"));
        let opts = HistogramOpts::new("sizes", "Sizes.").buckets(vec![10]);
        let sizes = register_histogram_with_registry!(opts, registry).unwrap();
        let most = (1 << 48) - 1;
        full.inc_by(most - 1);
        full.inc_by(2);
        full.inc();
        full.inc();
        sizes.observe(most);
        sizes.observe(1);
        assert_eq!(registry.refused(), 3, "{way}");
        let version = |batch: &mut Batch| {
            batch.inc(&free);
            batch.observe(&sizes, 0);
            batch.inc(&full);
        };
        assert_eq!(registry.publish(version).unwrap_err().number(), Some(12), "{way}");
        let told = (full.get(), free.get(), sizes.get_sample_sum(), sizes.get_sample_count());
        assert_eq!(told, (most, 0, most, 1), "{way}");
        let text = registry.gather_text().unwrap();
        assert_eq!(number(&text, "full_total"), most as i64, "{way}");
        assert_eq!(number(&text, "dirgwako_refused_total"), 3, "{way}");
        // What was refused takes no room.
        free.inc_by(most);
        assert_eq!((free.get(), registry.refused()), (most, 3), "{way}");
        // Another thread may have another recorder, which has room.
        let refused = registry.refused();
        thread::scope(|scope| (0..64).for_each(|_| drop(scope.spawn(|| full.inc()))));
        assert_eq!(full.get() - most + registry.refused() - refused, 64, "{way}");
    }
}
