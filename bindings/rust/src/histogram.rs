//! Histograms and timers.

use crate::bound::{Bound, Core};
use crate::error::Result;
use crate::names;
use crate::opts::HistogramOpts;
use crate::registry::{sealed::Sealed, Collector, Family, Registry};
use crate::sys::{histogram_totals, HistogramId, BOUNDS};
use crate::vec::Child;
use std::fmt;
use std::sync::Arc;
use std::time::{Duration, Instant};

/// What is observed before a histogram is registered: of each bucket how many values, and their
/// sum.
#[derive(Default)]
struct Early {
    counts: [u64; BOUNDS + 1],
    sums: [u64; BOUNDS + 1],
}

struct HistogramCore {
    core: Core<HistogramId, Early>,
    bounds: Vec<u64>,
    /// By how many digits the text shifts what is counted.
    digits: usize,
}

/// How many values were at most each of its bounds, their sum and their count, as
/// `prometheus::Histogram`, of whole numbers.
///
/// ```
/// use dirgwako::{register_histogram, HistogramOpts};
/// let opts = HistogramOpts::new("answer_bytes", "Bytes.").buckets(vec![100, 1000]);
/// let bytes = register_histogram!(opts).unwrap();
/// bytes.observe(300);
/// assert_eq!((bytes.get_sample_count(), bytes.get_sample_sum()), (1, 300));
/// ```
///
/// One of seconds (its name ends in `_seconds`) counts microseconds, and its text shows seconds,
/// exactly:
///
/// ```
/// use dirgwako::{Histogram, HistogramOpts, Registry};
/// use std::time::Duration;
/// let registry = Registry::new();
/// let opts = HistogramOpts::new("answer_seconds", "Answers.").buckets(vec![0.005, 0.25]);
/// let answers = Histogram::with_opts(opts).unwrap();
/// registry.register(Box::new(answers.clone())).unwrap();
/// answers.observe_for(Duration::from_micros(7300));
/// let text = registry.gather_text().unwrap();
/// assert!(text.contains("answer_seconds_bucket{le=\"0.25\"} 1\n"));
/// assert!(text.contains("answer_seconds_sum 0.0073\n"));
/// ```
#[derive(Clone)]
pub struct Histogram(Arc<HistogramCore>);

impl Histogram {
    /// A histogram that is not registered yet.
    ///
    /// # Errors
    ///
    /// As [`IntCounter::with_opts`](crate::IntCounter::with_opts); 8: a label is `le`; 10: the
    /// bounds are none.
    pub fn with_opts(opts: HistogramOpts) -> Result<Histogram> {
        names::check(&opts.common_opts, &[], true)?;
        names::check_single(&opts.common_opts)?;
        Histogram::make(opts)
    }

    /// Counts a value: microseconds, of a histogram of seconds. Where it is refused, since the sum
    /// would pass 2^48 - 1 in one recorder, [`Registry::refused`] tells.
    ///
    /// ```compile_fail
    /// # use dirgwako::{Histogram, HistogramOpts};
    /// let opts = HistogramOpts::new("answer_seconds", "Answers.");
    /// let answers = Histogram::with_opts(opts).unwrap();
    /// answers.observe(0.25);
    /// ```
    #[inline]
    pub fn observe(&self, value: u64) {
        loop {
            if let Some(bound) = self.0.core.bound() {
                bound.pool().observe(bound.board, &bound.id, value);
                return;
            }
            if self.0.core.pend(|early| early.add(self.place(value), value)) {
                return;
            }
        }
    }

    /// Counts a duration, in what the histogram counts: microseconds, unless its
    /// [`digits`](HistogramOpts::digits) say another part of a second.
    pub fn observe_for(&self, duration: Duration) {
        self.observe(self.units(duration));
    }

    /// A timer, which observes how long it was there.
    pub fn start_timer(&self) -> HistogramTimer {
        HistogramTimer { histogram: Some(self.clone()), start: Instant::now() }
    }

    /// Observes how long a call takes.
    pub fn observe_closure_duration<F: FnOnce() -> T, T>(&self, call: F) -> T {
        let timer = self.start_timer();
        let made = call();
        timer.observe_duration();
        made
    }

    /// A histogram of one thread, which is added to this one where it is flushed.
    pub fn local(&self) -> crate::local::LocalHistogram {
        crate::local::LocalHistogram::new(self.clone())
    }

    /// The sum of all values, in what is counted: microseconds, of a histogram of seconds. As
    /// [`IntCounter::get`](crate::IntCounter::get).
    pub fn get_sample_sum(&self) -> u64 {
        self.totals().0
    }

    /// How many values were counted. As [`IntCounter::get`](crate::IntCounter::get).
    pub fn get_sample_count(&self) -> u64 {
        self.totals().1
    }

    fn totals(&self) -> (u64, u64) {
        let Some(bound) = self.0.core.bound() else {
            return self
                .0
                .core
                .pending(|early| (early.sums.iter().sum(), early.counts.iter().sum()));
        };
        let totals =
            bound.registry.0.numbers(bound.board, |numbers| histogram_totals(numbers, &bound.id));
        totals.map_or((0, 0), |totals| (totals.sum, totals.count))
    }

    /// The bucket of a value, before there is a handle.
    fn place(&self, value: u64) -> usize {
        self.0.bounds.iter().position(|bound| value <= *bound).unwrap_or(self.0.bounds.len())
    }

    /// A duration in what is counted.
    pub(crate) fn units(&self, duration: Duration) -> u64 {
        let digits = if self.0.digits == 0 { 6 } else { self.0.digits.min(9) };
        let unit = 10u128.pow(9 - digits as u32);
        u64::try_from(duration.as_nanos() / unit).unwrap_or(u64::MAX)
    }

    pub(crate) fn bound(&self) -> Option<&Bound<HistogramId>> {
        self.0.core.bound()
    }

    pub(crate) fn name(&self) -> String {
        self.0.core.name()
    }

    fn bind(&self, bound: Bound<HistogramId>) {
        self.0.core.bind(bound, |bound, early| {
            early.values(|value| {
                bound.pool().observe(bound.board, &bound.id, value);
            })
        });
    }
}

impl Early {
    fn add(&mut self, place: usize, value: u64) {
        self.counts[place] += 1;
        self.sums[place] = self.sums[place].saturating_add(value);
    }

    /// As many values of each bucket as it counted, with their sum: each is the mean or the number
    /// above it, which the bucket has too.
    fn values(&self, mut observe: impl FnMut(u64)) {
        for (count, sum) in self.counts.iter().zip(&self.sums) {
            for at in 0..*count {
                observe(sum / count + u64::from(at < sum % count));
            }
        }
    }
}

impl fmt::Debug for Histogram {
    fn fmt(&self, f: &mut fmt::Formatter<'_>) -> fmt::Result {
        f.debug_tuple("Histogram").field(&self.name()).finish()
    }
}

impl Sealed for Histogram {}

impl Collector for Histogram {
    fn join(&self, registry: &Registry) -> Result<()> {
        let opts = HistogramOpts {
            common_opts: self.0.core.opts.clone().digits(self.0.digits as u32),
            buckets: self.0.bounds.clone().into(),
        };
        crate::vec::join_alone(self, registry, &opts)
    }
}

impl Child for Histogram {
    type Opts = HistogramOpts;

    fn common(opts: &mut HistogramOpts) -> &mut crate::Opts {
        &mut opts.common_opts
    }

    fn check(opts: &HistogramOpts, labels: &[String]) -> Result<()> {
        names::check(&opts.common_opts, labels, true)?;
        opts.bounds().map(|_| ())
    }

    fn make(opts: HistogramOpts) -> Result<Histogram> {
        let (bounds, digits) = (opts.bounds()?, opts.shift());
        Ok(Histogram(Arc::new(HistogramCore { core: Core::new(opts.common_opts), bounds, digits })))
    }

    fn claim(&self) -> Result<()> {
        self.0.core.claim()
    }

    fn unclaim(&self) {
        self.0.core.unclaim();
    }

    fn family(registry: &Registry, opts: &HistogramOpts, labels: &[String]) -> Result<Family> {
        registry.family::<HistogramId>(&opts.common_opts, labels, &opts.bounds()?, opts.shift())
    }

    fn join_family(&self, registry: &Registry, family: &Family, values: &[&str]) -> Result<()> {
        self.bind(registry.child(&self.name(), family, values)?);
        Ok(())
    }

    fn join_nobody(&self, registry: &Registry) {
        self.bind(registry.nobody());
    }
}

/// Observes how long it was there, at its end, as `prometheus::HistogramTimer`. It may go to
/// another thread.
///
/// ```
/// # use dirgwako::{Histogram, HistogramOpts};
/// # let answers = Histogram::with_opts(HistogramOpts::new("answer_seconds", "Answers.")).unwrap();
/// let timer = answers.start_timer();
/// // The work.
/// let seconds: f64 = timer.stop_and_record();
/// # assert!(seconds < 60.0 && answers.get_sample_count() == 1);
/// ```
#[must_use = "a timer that is dropped at once has observed nothing"]
#[derive(Debug)]
pub struct HistogramTimer {
    histogram: Option<Histogram>,
    start: Instant,
}

impl HistogramTimer {
    /// Ends it.
    pub fn observe_duration(self) {
        drop(self);
    }

    /// Ends it, and tells the seconds.
    pub fn stop_and_record(self) -> f64 {
        self.stop(true)
    }

    /// Ends it without an observation, and tells the seconds.
    pub fn stop_and_discard(self) -> f64 {
        self.stop(false)
    }

    fn stop(mut self, is_recorded: bool) -> f64 {
        let elapsed = self.start.elapsed();
        if let Some(histogram) = self.histogram.take() {
            if is_recorded {
                histogram.observe_for(elapsed);
            }
        }
        elapsed.as_secs_f64()
    }
}

impl Drop for HistogramTimer {
    fn drop(&mut self) {
        if let Some(histogram) = self.histogram.take() {
            histogram.observe_for(self.start.elapsed());
        }
    }
}

#[cfg(test)]
mod tests {
    use super::*;

    /// What was observed early comes out with its count and its sum, and each value in the bucket
    /// that it was in.
    #[test]
    fn early_values() {
        let mut early = Early::default();
        for (place, value) in [(0, 3), (0, 10), (0, 10), (2, 21), (2, 30), (2, 22)] {
            early.add(place, value);
        }
        let mut values = Vec::new();
        early.values(|value| values.push(value));
        assert_eq!(values, [8, 8, 7, 25, 24, 24]);
    }

    /// Each digit has its part of a second.
    #[test]
    fn units_of_durations() {
        let elapsed = Duration::from_nanos(1_234_567_890);
        for (name, digits, units) in [
            ("a_seconds", None, 1_234_567),
            ("a_micros", None, 1_234_567),
            ("a", Some(9), 1_234_567_890),
            ("a", Some(3), 1234),
            ("a", Some(1), 12),
        ] {
            let mut opts = HistogramOpts::new(name, "Of it.");
            opts.common_opts.digits = digits;
            if digits == Some(1) {
                opts = opts.buckets(vec![5, 10]);
            }
            assert_eq!(
                Histogram::with_opts(opts).unwrap().units(elapsed),
                units,
                "{name} {digits:?}"
            );
        }
    }
}
