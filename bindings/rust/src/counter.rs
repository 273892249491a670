//! Counters, for any thread at any time.

use crate::bound::{Bound, Core};
use crate::error::Result;
use crate::names;
use crate::opts::Opts;
use crate::registry::{sealed::Sealed, Collector, Family, Registry};
use crate::sys::{counter_total, CounterId};
use crate::vec::Child;
use std::fmt;
use std::sync::Arc;

/// A number that rises, as `prometheus::IntCounter`. A clone counts for the same series.
///
/// ```
/// use dirgwako::register_int_counter;
/// let hits = register_int_counter!("hits_total", "Hits.").unwrap();
/// let other = hits.clone();
/// std::thread::spawn(move || other.inc()).join().unwrap();
/// hits.inc_by(2);
/// assert_eq!(hits.get(), 3);
/// ```
#[derive(Clone)]
pub struct IntCounter(Arc<Core<CounterId, u64>>);

/// The peer's counter of floats is a counter of whole numbers here: the compiler finds each float.
pub type Counter = IntCounter;

impl IntCounter {
    /// A counter that is not registered yet.
    ///
    /// # Errors
    ///
    /// 1, 2, 3: the name is none; 3, 5: the help is none.
    pub fn new<S1: Into<String>, S2: Into<String>>(name: S1, help: S2) -> Result<IntCounter> {
        IntCounter::with_opts(Opts::new(name, help))
    }

    /// The same, by its parts.
    ///
    /// # Errors
    ///
    /// As [`IntCounter::new`]; and 1 to 4, 7, 9: a constant label is none. 21: a label has no
    /// value.
    pub fn with_opts(opts: Opts) -> Result<IntCounter> {
        names::check(&opts, &[], false)?;
        names::check_single(&opts)?;
        Ok(IntCounter(Arc::new(Core::new(opts))))
    }

    /// Adds 1.
    #[inline]
    pub fn inc(&self) {
        self.inc_by(1);
    }

    /// Adds a number. Where it is refused, since the counter would pass 2^48 - 1 in one recorder,
    /// [`Registry::refused`] tells.
    ///
    /// A counter has no fractions, and the compiler says where a program adds one:
    ///
    /// ```compile_fail
    /// let hits = dirgwako::Counter::new("hits_total", "Hits.").unwrap();
    /// hits.inc_by(0.5);
    /// ```
    #[inline]
    pub fn inc_by(&self, by: u64) {
        loop {
            if let Some(bound) = self.0.bound() {
                bound.pool().inc(bound.board, &bound.id, by);
                return;
            }
            if self.0.pend(|early| *early = early.saturating_add(by)) {
                return;
            }
        }
    }

    /// The number, in a scrape of its board that is made now: microseconds, behind the registry's
    /// lock. For tests and decisions, not for hot paths.
    pub fn get(&self) -> u64 {
        match self.0.bound() {
            Some(bound) => bound
                .registry
                .0
                .numbers(bound.board, |numbers| counter_total(numbers, &bound.id))
                .unwrap_or(0),
            None => self.0.pending(|early| *early),
        }
    }

    /// A counter of one thread, which is added to this one where it is flushed.
    pub fn local(&self) -> crate::local::LocalIntCounter {
        crate::local::LocalIntCounter::new(self.clone())
    }

    pub(crate) fn bound(&self) -> Option<&Bound<CounterId>> {
        self.0.bound()
    }

    pub(crate) fn name(&self) -> String {
        self.0.name()
    }

    fn bind(&self, bound: Bound<CounterId>) {
        self.0.bind(bound, |bound, early| {
            let early = std::mem::take(early);
            if early > 0 {
                bound.pool().inc(bound.board, &bound.id, early);
            }
        });
    }
}

impl fmt::Debug for IntCounter {
    fn fmt(&self, f: &mut fmt::Formatter<'_>) -> fmt::Result {
        f.debug_tuple("IntCounter").field(&self.name()).finish()
    }
}

impl Sealed for IntCounter {}

impl Collector for IntCounter {
    fn join(&self, registry: &Registry) -> Result<()> {
        crate::vec::join_alone(self, registry, &self.0.opts)
    }
}

impl Child for IntCounter {
    type Opts = Opts;

    fn common(opts: &mut Opts) -> &mut Opts {
        opts
    }

    fn check(opts: &Opts, labels: &[String]) -> Result<()> {
        names::check(opts, labels, false)
    }

    fn make(opts: Opts) -> Result<IntCounter> {
        Ok(IntCounter(Arc::new(Core::new(opts))))
    }

    fn claim(&self) -> Result<()> {
        self.0.claim()
    }

    fn unclaim(&self) {
        self.0.unclaim();
    }

    fn family(registry: &Registry, opts: &Opts, labels: &[String]) -> Result<Family> {
        registry.family::<CounterId>(opts, labels, &[], opts.digits_or(0))
    }

    fn join_family(&self, registry: &Registry, family: &Family, values: &[&str]) -> Result<()> {
        self.bind(registry.child(&self.name(), family, values)?);
        Ok(())
    }

    fn join_nobody(&self, registry: &Registry) {
        self.bind(registry.nobody());
    }
}
