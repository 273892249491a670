//! Prometheus metrics by the names and calls of the crate `prometheus` 0.13, whose scrapes show all
//! series of a board at one moment.
//!
//! A service adopts it by its import: `prometheus = { package = "dirgwako", .. }`. Numbers are
//! whole; the compiler finds each float.
//!
//! ```
//! use dirgwako::{gather, register_int_counter, TextEncoder};
//!
//! let hits = register_int_counter!("hits_total", "Hits.").unwrap();
//! let other = hits.clone();
//! std::thread::spawn(move || other.inc()).join().unwrap();
//! hits.inc();
//! let text = TextEncoder::new().encode_to_string(&gather()).unwrap();
//! assert_eq!(text, "# HELP hits_total Hits.\n# TYPE hits_total counter\nhits_total 2\n");
//! ```
//!
//! Several changes are one version by [`Registry::publish`], of which each scrape shows all or
//! nothing. [`Builder::tallied`] says how a hot service lets its threads count. The library behind
//! it is proved, and has a page for C, `bindings/c/README.md`, which says how it is built.
#![deny(unsafe_code)]
#![warn(missing_docs)]

mod batch;
mod bound;
mod children;
mod counter;
mod encoder;
mod error;
mod gauge;
mod histogram;
mod ids;
pub mod local;
mod macros;
mod names;
mod opts;
mod pool;
mod registry;
mod scrape;
mod serve;
mod sys;
mod tally;
mod vec;

pub use batch::Batch;
pub use counter::{Counter, IntCounter};
pub use encoder::{Encoder, TextEncoder, TEXT_FORMAT};
pub use error::{Error, Result};
pub use gauge::{Gauge, IntGauge};
pub use histogram::{Histogram, HistogramTimer};
pub use opts::{
    exponential_buckets, linear_buckets, Bound, Buckets, HistogramOpts, Opts, DEFAULT_BUCKETS,
};
pub use registry::{default_registry, gather, register, set_default_registry, Builder, Registry};
pub use scrape::Gathered;
pub use serve::Server;
pub use vec::{CounterVec, GaugeVec, HistogramVec, IntCounterVec, IntGaugeVec};

/// What programs name by `prometheus::core`.
pub mod core {
    pub use crate::opts::Opts;
    pub use crate::registry::Collector;
    pub use crate::vec::{Child, MetricVec};
}

// Handles go to any thread, are shared by all, and are used on where one panics; timers, servers
// and local metrics go to any thread.
const _: () = {
    use std::panic::{RefUnwindSafe, UnwindSafe};
    const fn is_shared<T: Send + Sync + UnwindSafe + RefUnwindSafe + 'static>() {}
    const fn is_sent<T: Send + 'static>() {}
    is_shared::<Registry>();
    is_shared::<IntCounter>();
    is_shared::<IntGauge>();
    is_shared::<Histogram>();
    is_shared::<IntCounterVec>();
    is_shared::<IntGaugeVec>();
    is_shared::<HistogramVec>();
    is_sent::<HistogramTimer>();
    is_sent::<Server>();
    is_sent::<local::LocalIntCounter>();
    is_sent::<local::LocalHistogram>();
    is_sent::<local::LocalHistogramTimer>();
};
