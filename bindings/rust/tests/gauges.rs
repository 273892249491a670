//! Gauges that are raised and set.

mod shared;

use dirgwako::*;
use shared::{both, gauge, number};
use std::sync::atomic::{AtomicBool, Ordering::SeqCst};
use std::thread;

/// One thread sets to thousands, two raise by 1 and take it back: each scrape shows a number that
/// the gauge had.
#[test]
fn set_and_raised() {
    for (way, registry) in both() {
        let level = gauge(&registry, "level");
        level.set(1000);
        let running = AtomicBool::new(true);
        thread::scope(|scope| {
            for own in 0..3 {
                let (level, running) = (&level, &running);
                scope.spawn(move || {
                    for turn in 1..4000 {
                        if own == 0 {
                            level.set(1000 * (turn % 7));
                        } else {
                            level.inc();
                            level.dec();
                        }
                    }
                    running.store(false, SeqCst);
                });
            }
            while running.load(SeqCst) {
                let told = number(&registry.gather_text().unwrap(), "level");
                // A raise that is taken back behind a set leaves the gauge one off, on either side,
                // of each of the two.
                assert!((-2..=6002).contains(&told), "{way}: {told}");
                let off = (told + 2).rem_euclid(1000) - 2;
                assert!((-2..=2).contains(&off), "{way}: {told}");
            }
        });
        let told = number(&registry.gather_text().unwrap(), "level");
        assert_eq!(told, level.get(), "{way}");
        level.set(-5);
        let told = number(&registry.gather_text().unwrap(), "level");
        assert_eq!((told, level.get()), (-5, -5), "{way}");
    }
}

/// Two threads set a gauge, each to numbers of its own: a set that was reckoned from what another
/// one has moved since would leave a number that nobody has set.
#[test]
fn set_by_two() {
    for (way, registry) in both() {
        let level = gauge(&registry, "level");
        level.set(1000);
        let running = AtomicBool::new(true);
        thread::scope(|scope| {
            let set = |own: i64| {
                (0..20_000).for_each(|turn| level.set(own + 100 * (turn % 2)));
                running.store(false, SeqCst);
            };
            scope.spawn(move || set(1000));
            scope.spawn(move || set(5000));
            while running.load(SeqCst) {
                let told = number(&registry.gather_text().unwrap(), "level");
                assert!([1000, 1100, 5000, 5100].contains(&told), "{way}: {told}");
            }
        });
        assert!([1000, 1100, 5000, 5100].contains(&level.get()), "{way}: {}", level.get());
    }
}

/// Versions that set the same gauges in another order: two threads that each held one of them and
/// waited for the other would stay for ever.
#[test]
fn set_in_any_order() {
    for (way, registry) in both() {
        let all = ["a", "b", "c"].map(|name| gauge(&registry, name));
        thread::scope(|scope| {
            for own in 0..3 {
                let (all, registry) = (&all, &registry);
                scope.spawn(move || {
                    for turn in 0..5000 {
                        let version = |batch: &mut Batch| {
                            (0..3).for_each(|at| batch.set(&all[(own + at) % 3], turn));
                        };
                        registry.publish(version).unwrap();
                    }
                });
            }
        });
        let told = all.map(|gauge| gauge.get());
        assert!(told[0] == told[1] && told[1] == told[2], "{way}: {told:?}");
    }
}

/// A gauge that is set before it is registered shows what it was set to.
#[test]
fn set_before_it_is_registered() {
    for (way, registry) in both() {
        let level = IntGauge::new("level", "Level.").unwrap();
        level.set(-40);
        level.inc();
        registry.register(Box::new(level.clone())).unwrap();
        assert_eq!(number(&registry.gather_text().unwrap(), "level"), -39, "{way}");
        level.sub(1);
        assert_eq!(number(&registry.gather_text().unwrap(), "level"), -40, "{way}");
    }
}

/// Swings add up to 2^48 - 1 in a recorder. What would pass it is refused and told, the gauge stays
/// as it was, and other gauges move on.
#[test]
fn the_end_of_its_swings() {
    for (way, registry) in both() {
        let (far, near) = (gauge(&registry, "far"), gauge(&registry, "near"));
        let swing = 1 << 46;
        let mut swings = 0;
        while registry.refused() == 0 {
            far.set(swing);
            far.set(0);
            swings += 1;
        }
        // One thread has one recorder: three rises of 2^46 fit into 2^48 - 1, and the fourth is
        // refused.
        assert_eq!((swings, far.get()), (4, 0), "{way}");
        let version = |batch: &mut Batch| {
            batch.set(&near, 3);
            batch.set(&far, swing);
        };
        assert_eq!(registry.publish(version).unwrap_err().number(), Some(12), "{way}");
        near.set(9);
        let text = registry.gather_text().unwrap();
        assert_eq!((number(&text, "far"), number(&text, "near")), (0, 9), "{way}");
        assert_eq!(number(&text, "dirgwako_refused_total"), 1, "{way}");
    }
}
