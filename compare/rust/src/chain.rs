//! Scrapes while another thread counts without rest, along a chain. Whatever the moment, of the five series
//! `a_total`, `b_total`, `c_bytes_count`, `d_total{child="1"}` and `d_total{child="2"}` none is above the one before it, and the
//! first one is at most 1 above the last. All buckets of `c_bytes` equal its count, and its sum is 7 times its count.

use crate::service::text;
use prometheus::{Histogram, HistogramOpts, IntCounter, IntCounterVec, Opts, Registry};
use std::io::Write;
use std::sync::atomic::{AtomicBool, Ordering};
use std::thread;

/// What is observed, again and again.
const BYTES: f64 = 7.0;

/// What the counting thread raises, one after the other.
struct Chain {
    a: IntCounter,
    b: IntCounter,
    bytes: Histogram,
    first: IntCounter,
    second: IntCounter,
}

impl Chain {
    /// Registers it.
    fn register(registry: &Registry) -> prometheus::Result<Chain> {
        let opts = HistogramOpts::new("c_bytes", "Bytes.").buckets(vec![10.0, 100.0]);
        let children = IntCounterVec::new(Opts::new("d_total", "Children."), &["child"])?;
        let chain = Chain {
            a: IntCounter::new("a_total", "First.")?,
            b: IntCounter::new("b_total", "Second.")?,
            bytes: Histogram::with_opts(opts)?,
            first: children.with_label_values(&["1"]),
            second: children.with_label_values(&["2"]),
        };
        registry.register(Box::new(chain.a.clone()))?;
        registry.register(Box::new(chain.b.clone()))?;
        registry.register(Box::new(chain.bytes.clone()))?;
        registry.register(Box::new(children))?;
        Ok(chain)
    }

    /// One round.
    fn count(&self) {
        self.a.inc();
        self.b.inc();
        self.bytes.observe(BYTES);
        self.first.inc();
        self.second.inc();
    }
}

/// Prints so many scrapes, while another thread counts.
pub fn torn(scrapes: u64) {
    let registry = Registry::new();
    let chain = Chain::register(&registry).expect("the chain is registered");
    let ended = AtomicBool::new(false);
    thread::scope(|scope| {
        scope.spawn(|| {
            while !ended.load(Ordering::SeqCst) {
                chain.count();
            }
        });
        while chain.second.get() == 0 {
            thread::yield_now();
        }
        let mut out = std::io::stdout().lock();
        for _scrape in 0..scrapes {
            if write!(out, "---\n{}", text(&registry)).is_err() {
                break;
            }
        }
        ended.store(true, Ordering::SeqCst);
    });
}
