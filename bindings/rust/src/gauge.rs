//! Gauges, for any thread at any time.

use crate::bound::{Bound, Core};
use crate::error::Result;
use crate::names;
use crate::opts::Opts;
use crate::pool::lock;
use crate::registry::{sealed::Sealed, Collector, Family, Registry};
use crate::sys::GaugeId;
use crate::vec::Child;
use std::fmt;
use std::sync::atomic::{AtomicBool, AtomicI64, Ordering::Relaxed};
use std::sync::{Arc, Mutex, MutexGuard};

struct GaugeCore {
    core: Core<GaugeId, ()>,
    /// What all changes so far come to.
    value: AtomicI64,
    /// It has been set: from then on one change at a time moves the value and the board.
    is_set: AtomicBool,
    moves: Mutex<()>,
}

/// A number that rises and falls, as `prometheus::IntGauge`. A clone is of the same series.
///
/// The board counts a gauge's rises and falls apart, and each at most to 2^48 - 1 in one recorder:
/// a gauge of bytes that swings by 1 GB at each [`set`](IntGauge::set) has 280,000 sets in each of
/// them. A change that would pass it is refused, the gauge stays as it is, and
/// [`Registry::refused`] tells.
///
/// ```
/// use dirgwako::register_int_gauge;
/// let open = register_int_gauge!("open_connections", "Open connections.").unwrap();
/// open.set(5);
/// open.dec();
/// assert_eq!(open.get(), 4);
/// ```
#[derive(Clone)]
pub struct IntGauge(Arc<GaugeCore>);

/// The peer's gauge of floats is a gauge of whole numbers here: the compiler finds each float.
pub type Gauge = IntGauge;

impl IntGauge {
    /// A gauge that is not registered yet.
    ///
    /// # Errors
    ///
    /// As [`IntCounter::new`](crate::IntCounter::new).
    pub fn new<S1: Into<String>, S2: Into<String>>(name: S1, help: S2) -> Result<IntGauge> {
        IntGauge::with_opts(Opts::new(name, help))
    }

    /// The same, by its parts.
    ///
    /// # Errors
    ///
    /// As [`IntCounter::with_opts`](crate::IntCounter::with_opts).
    pub fn with_opts(opts: Opts) -> Result<IntGauge> {
        names::check(&opts, &[], false)?;
        names::check_single(&opts)?;
        IntGauge::make(opts)
    }

    /// Adds 1.
    #[inline]
    pub fn inc(&self) {
        self.add(1);
    }

    /// Takes 1 away.
    #[inline]
    pub fn dec(&self) {
        self.add(-1);
    }

    /// Takes a number away.
    #[inline]
    pub fn sub(&self, by: i64) {
        self.add(by.wrapping_neg());
    }

    /// Adds a number.
    #[inline]
    pub fn add(&self, by: i64) {
        let gauge = &*self.0;
        loop {
            if let Some(bound) = gauge.core.bound() {
                if gauge.is_set.load(Relaxed) {
                    self.move_alone(bound, |now| now.wrapping_add(by));
                } else {
                    gauge.value.fetch_add(by, Relaxed);
                    if bound.pool().step(bound.board, &bound.id, by) != 0 {
                        gauge.value.fetch_sub(by, Relaxed);
                    }
                }
                return;
            }
            if gauge.core.pend(|()| self.shift(by)) {
                return;
            }
        }
    }

    /// Sets it. From its first set on all changes of this gauge take a lock of its own, so that
    /// each scrape shows a number that the gauge had.
    pub fn set(&self, to: i64) {
        loop {
            if let Some(bound) = self.0.core.bound() {
                self.move_alone(bound, |_| to);
                return;
            }
            if self.0.core.pend(|()| self.0.value.store(to, Relaxed)) {
                return;
            }
        }
    }

    /// What all changes so far come to: one load.
    pub fn get(&self) -> i64 {
        self.0.value.load(Relaxed)
    }

    /// One change at a time. Who began to add before the first set may still do so beside it, and
    /// nothing is lost.
    fn move_alone(&self, bound: &Bound<GaugeId>, to: impl Fn(i64) -> i64) {
        let _alone = self.alone();
        let now = self.get();
        let by = to(now).wrapping_sub(now);
        if by != 0 && bound.pool().step(bound.board, &bound.id, by) == 0 {
            self.shift(by);
        }
    }

    /// The right to move it alone, which from now on all changes ask for.
    pub(crate) fn alone(&self) -> MutexGuard<'_, ()> {
        let alone = lock(&self.0.moves);
        self.0.is_set.store(true, Relaxed);
        alone
    }

    pub(crate) fn is_set(&self) -> bool {
        self.0.is_set.load(Relaxed)
    }

    /// Moves the value, and not the board.
    pub(crate) fn shift(&self, by: i64) {
        self.0.value.fetch_add(by, Relaxed);
    }

    /// The same for all clones, and another for each other gauge.
    pub(crate) fn place(&self) -> usize {
        Arc::as_ptr(&self.0) as usize
    }

    pub(crate) fn bound(&self) -> Option<&Bound<GaugeId>> {
        self.0.core.bound()
    }

    pub(crate) fn name(&self) -> String {
        self.0.core.name()
    }

    fn bind(&self, bound: Bound<GaugeId>) {
        self.0.core.bind(bound, |bound, ()| {
            let early = self.get();
            if early != 0 && bound.pool().step(bound.board, &bound.id, early) != 0 {
                self.shift(early.wrapping_neg());
            }
        });
    }
}

impl fmt::Debug for IntGauge {
    fn fmt(&self, f: &mut fmt::Formatter<'_>) -> fmt::Result {
        f.debug_tuple("IntGauge").field(&self.name()).finish()
    }
}

impl Sealed for IntGauge {}

impl Collector for IntGauge {
    fn join(&self, registry: &Registry) -> Result<()> {
        crate::vec::join_alone(self, registry, &self.0.core.opts)
    }
}

impl Child for IntGauge {
    type Opts = Opts;

    fn common(opts: &mut Opts) -> &mut Opts {
        opts
    }

    fn check(opts: &Opts, labels: &[String]) -> Result<()> {
        names::check(opts, labels, false)
    }

    fn make(opts: Opts) -> Result<IntGauge> {
        Ok(IntGauge(Arc::new(GaugeCore {
            core: Core::new(opts),
            value: AtomicI64::new(0),
            is_set: AtomicBool::new(false),
            moves: Mutex::new(()),
        })))
    }

    fn claim(&self) -> Result<()> {
        self.0.core.claim()
    }

    fn unclaim(&self) {
        self.0.core.unclaim();
    }

    fn family(registry: &Registry, opts: &Opts, labels: &[String]) -> Result<Family> {
        registry.family::<GaugeId>(opts, labels, &[], opts.digits_or(0))
    }

    fn join_family(&self, registry: &Registry, family: &Family, values: &[&str]) -> Result<()> {
        self.bind(registry.child(&self.name(), family, values)?);
        Ok(())
    }

    fn join_nobody(&self, registry: &Registry) {
        self.bind(registry.nobody());
    }
}
