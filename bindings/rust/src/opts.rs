//! What metrics are made of: names, helps, labels and bounds.

use crate::error::{Error, Result};
use crate::names;
use std::collections::HashMap;

/// The name, the help and the labels of a metric, as `prometheus::Opts`.
///
/// ```
/// use dirgwako::{IntCounter, Opts};
/// let opts = Opts::new("hits_total", "Hits.").namespace("shop").subsystem("web").group(7);
/// assert_eq!(opts.fq_name(), "shop_web_hits_total");
/// let hits = IntCounter::with_opts(opts).unwrap();
/// # let _ = hits;
/// ```
#[derive(Clone, Debug, Default)]
pub struct Opts {
    /// In front of the name, by `_`, where it is not empty.
    pub namespace: String,
    /// Between the namespace and the name, likewise.
    pub subsystem: String,
    /// The name itself.
    pub name: String,
    /// What the metric is, in the text's `# HELP`.
    pub help: String,
    /// Labels with one value.
    pub const_labels: HashMap<String, String>,
    /// Labels whose values each child has its own of. `MetricVec::new` sets them.
    pub variable_labels: Vec<String>,
    /// The group: metrics that shall agree in each scrape go into one. It is 0 where it is not
    /// said. Not in `prometheus`.
    pub group: u64,
    /// By how many decimal digits the text shifts the numbers, 0 to 9, where it is said. Not in
    /// `prometheus`.
    pub digits: Option<u32>,
}

impl Opts {
    /// A name and a help.
    pub fn new<S1: Into<String>, S2: Into<String>>(name: S1, help: S2) -> Opts {
        Opts { name: name.into(), help: help.into(), ..Opts::default() }
    }

    /// Sets the namespace.
    pub fn namespace<S: Into<String>>(mut self, namespace: S) -> Opts {
        self.namespace = namespace.into();
        self
    }

    /// Sets the subsystem.
    pub fn subsystem<S: Into<String>>(mut self, subsystem: S) -> Opts {
        self.subsystem = subsystem.into();
        self
    }

    /// Sets the labels that have one value.
    pub fn const_labels(mut self, labels: HashMap<String, String>) -> Opts {
        self.const_labels = labels;
        self
    }

    /// Adds a label that has one value.
    pub fn const_label<S1: Into<String>, S2: Into<String>>(mut self, name: S1, value: S2) -> Opts {
        self.const_labels.insert(name.into(), value.into());
        self
    }

    /// Sets the labels whose values differ.
    pub fn variable_labels(mut self, labels: Vec<String>) -> Opts {
        self.variable_labels = labels;
        self
    }

    /// Adds a label whose values differ.
    pub fn variable_label<S: Into<String>>(mut self, name: S) -> Opts {
        self.variable_labels.push(name.into());
        self
    }

    /// Sets the group. The metrics of a group begin on one board, and stay there as long as it has
    /// room: they are of one moment in each scrape, and can be published as one version. Not in
    /// `prometheus`.
    pub fn group(mut self, group: u64) -> Opts {
        self.group = group;
        self
    }

    /// Lets the text shift the numbers by so many decimal digits: a counter that is told
    /// microseconds is shown in seconds by 6. Not in `prometheus`.
    ///
    /// ```
    /// use dirgwako::{IntCounter, Opts, Registry};
    /// let registry = Registry::new();
    /// let opts = Opts::new("busy_seconds_total", "Busy.").digits(6);
    /// let busy = IntCounter::with_opts(opts).unwrap();
    /// registry.register(Box::new(busy.clone())).unwrap();
    /// busy.inc_by(1_500_000);
    /// assert!(registry.gather_text().unwrap().ends_with("busy_seconds_total 1.5\n"));
    /// ```
    pub fn digits(mut self, digits: u32) -> Opts {
        self.digits = Some(digits);
        self
    }

    /// The whole name: namespace, subsystem and name, by `_`.
    pub fn fq_name(&self) -> String {
        let parts = [&self.namespace, &self.subsystem, &self.name];
        let said: Vec<&str> =
            parts.into_iter().filter(|part| !part.is_empty()).map(String::as_str).collect();
        said.join("_")
    }

    pub(crate) fn digits_or(&self, digits: u32) -> usize {
        self.digits.unwrap_or(digits) as usize
    }
}

/// The bounds of a histogram, as they are given.
///
/// ```
/// use dirgwako::Buckets;
/// assert_eq!(Buckets::from(vec![100, 1000]), Buckets::Whole(vec![100, 1000]));
/// assert_eq!(Buckets::from(vec![0.1, 1.0]), Buckets::Shown(vec![0.1, 1.0]));
/// ```
#[derive(Clone, Debug, Default, PartialEq)]
pub enum Buckets {
    /// [`DEFAULT_BUCKETS`], in what the histogram counts; in microseconds where it counts whole
    /// numbers that are not shifted.
    #[default]
    Default,
    /// Whole numbers, as they are counted.
    Whole(Vec<u64>),
    /// As the text shows them: seconds, of a histogram of seconds. They are taken to the nearest
    /// number that is counted.
    Shown(Vec<f64>),
}

impl From<Vec<u64>> for Buckets {
    fn from(bounds: Vec<u64>) -> Buckets {
        Buckets::Whole(bounds)
    }
}

impl From<Vec<f64>> for Buckets {
    fn from(bounds: Vec<f64>) -> Buckets {
        Buckets::Shown(bounds)
    }
}

impl From<&[u64]> for Buckets {
    fn from(bounds: &[u64]) -> Buckets {
        Buckets::Whole(bounds.to_vec())
    }
}

impl From<&[f64]> for Buckets {
    fn from(bounds: &[f64]) -> Buckets {
        Buckets::Shown(bounds.to_vec())
    }
}

/// Bounds for durations, in seconds: 5 milliseconds to 10 seconds, as
/// `prometheus::DEFAULT_BUCKETS`.
pub const DEFAULT_BUCKETS: &[f64; 11] =
    &[0.005, 0.01, 0.025, 0.05, 0.1, 0.25, 0.5, 1.0, 2.5, 5.0, 10.0];

/// The name, the help, the labels and the bounds of a histogram, as `prometheus::HistogramOpts`.
///
/// A histogram whose name ends in `_seconds` counts whole microseconds, takes its bounds in
/// seconds, and its text shows seconds, exactly. Any other counts whole numbers, and is shown as it
/// is, unless [`HistogramOpts::digits`] says otherwise.
///
/// ```
/// use dirgwako::{Histogram, HistogramOpts};
/// let opts = HistogramOpts::new("answer_seconds", "Answers.").buckets(vec![0.001, 0.25]);
/// let answers = Histogram::with_opts(opts).unwrap();
/// let opts = HistogramOpts::new("answer_bytes", "Bytes.").buckets(vec![100, 1000]);
/// let bytes = Histogram::with_opts(opts).unwrap();
/// answers.observe(250_000); // Microseconds: a quarter of a second.
/// bytes.observe(300);
/// ```
#[derive(Clone, Debug, Default)]
pub struct HistogramOpts {
    /// All but the bounds.
    pub common_opts: Opts,
    /// The bounds, at most 24.
    pub buckets: Buckets,
}

impl HistogramOpts {
    /// A name and a help, with [`DEFAULT_BUCKETS`].
    pub fn new<S1: Into<String>, S2: Into<String>>(name: S1, help: S2) -> HistogramOpts {
        HistogramOpts::from(Opts::new(name, help))
    }

    /// Sets the namespace.
    pub fn namespace<S: Into<String>>(self, namespace: S) -> HistogramOpts {
        self.with(|opts| opts.namespace(namespace))
    }

    /// Sets the subsystem.
    pub fn subsystem<S: Into<String>>(self, subsystem: S) -> HistogramOpts {
        self.with(|opts| opts.subsystem(subsystem))
    }

    /// Sets the labels that have one value.
    pub fn const_labels(self, labels: HashMap<String, String>) -> HistogramOpts {
        self.with(|opts| opts.const_labels(labels))
    }

    /// Adds a label that has one value.
    pub fn const_label<S1: Into<String>, S2: Into<String>>(
        self,
        name: S1,
        value: S2,
    ) -> HistogramOpts {
        self.with(|opts| opts.const_label(name, value))
    }

    /// Sets the labels whose values differ.
    pub fn variable_labels(self, labels: Vec<String>) -> HistogramOpts {
        self.with(|opts| opts.variable_labels(labels))
    }

    /// Adds a label whose values differ.
    pub fn variable_label<S: Into<String>>(self, name: S) -> HistogramOpts {
        self.with(|opts| opts.variable_label(name))
    }

    /// Sets the group, as [`Opts::group`].
    pub fn group(self, group: u64) -> HistogramOpts {
        self.with(|opts| opts.group(group))
    }

    /// Lets the text shift bounds and sum by so many decimal digits, whatever the name is: by 9 a
    /// histogram that is told nanoseconds shows seconds.
    pub fn digits(self, digits: u32) -> HistogramOpts {
        self.with(|opts| opts.digits(digits))
    }

    /// Sets the bounds: floats as the text shows them, whole numbers as they are counted.
    pub fn buckets(mut self, buckets: impl Into<Buckets>) -> HistogramOpts {
        self.buckets = buckets.into();
        self
    }

    /// The whole name.
    pub fn fq_name(&self) -> String {
        self.common_opts.fq_name()
    }

    fn with(mut self, change: impl FnOnce(Opts) -> Opts) -> HistogramOpts {
        self.common_opts = change(self.common_opts);
        self
    }

    /// By how many digits the text shifts what is counted.
    pub(crate) fn shift(&self) -> usize {
        self.common_opts.digits_or(if self.common_opts.name.ends_with("_seconds") { 6 } else { 0 })
    }

    /// The bounds in what is counted.
    pub(crate) fn bounds(&self) -> Result<Vec<u64>> {
        let (name, shift) = (self.fq_name(), self.shift());
        let bounds = match &self.buckets {
            Buckets::Whole(bounds) => bounds.clone(),
            Buckets::Shown(shown) => counted(shown, shift, &name)?,
            Buckets::Default if shift == 0 => counted(DEFAULT_BUCKETS, 6, &name)?,
            Buckets::Default => counted(DEFAULT_BUCKETS, shift, &name)?,
        };
        names::check_bounds(&bounds, &name)?;
        Ok(bounds)
    }
}

impl From<Opts> for HistogramOpts {
    fn from(common_opts: Opts) -> HistogramOpts {
        HistogramOpts { common_opts, buckets: Buckets::Default }
    }
}

/// Bounds as they are counted, of bounds as they are shown. An infinite one at the end is each
/// histogram's own, and falls away.
fn counted(shown: &[f64], shift: usize, name: &str) -> Result<Vec<u64>> {
    let shown = match shown {
        [front @ .., last] if *last == f64::INFINITY => front,
        all => all,
    };
    let unit = 10f64.powi(shift as i32);
    let mut made = Vec::with_capacity(shown.len());
    for bound in shown {
        let whole = (bound * unit).round();
        // Above 2^53 neighbours are no whole numbers any more; bounds end at 2^48 - 1.
        if !(0.0..9e15).contains(&whole) || (shift == 0 && whole != *bound) {
            return Err(Error::of(10, &format!("{name}, bound {bound}")));
        }
        made.push(whole as u64);
    }
    Ok(made)
}

/// A number that bounds are made of: `u64` as it is counted, `f64` as the text shows it.
pub trait Bound: Copy + PartialOrd + sealed::Sealed {
    #[doc(hidden)]
    fn rises_by(self, width: Self, count: usize) -> Option<Vec<Self>>;
    #[doc(hidden)]
    fn rises_times(self, factor: Self, count: usize) -> Option<Vec<Self>>;
}

mod sealed {
    pub trait Sealed {}
    impl Sealed for u64 {}
    impl Sealed for f64 {}
}

impl Bound for u64 {
    fn rises_by(self, width: u64, count: usize) -> Option<Vec<u64>> {
        let at = |step: u64| width.checked_mul(step)?.checked_add(self);
        (width > 0).then(|| (0..count as u64).map(at).collect())?
    }

    fn rises_times(self, factor: u64, count: usize) -> Option<Vec<u64>> {
        let mut made = vec![self];
        while made.len() < count {
            made.push(made.last()?.checked_mul(factor)?);
        }
        (self > 0 && factor > 1).then_some(made)
    }
}

impl Bound for f64 {
    fn rises_by(self, width: f64, count: usize) -> Option<Vec<f64>> {
        (width > 0.0).then(|| (0..count).map(|step| self + width * step as f64).collect())
    }

    fn rises_times(self, factor: f64, count: usize) -> Option<Vec<f64>> {
        let bounds =
            std::iter::successors(Some(self), |last| Some(last * factor)).take(count).collect();
        (self > 0.0 && factor > 1.0).then_some(bounds)
    }
}

/// `start`, and further bounds, each `width` above the one before: `count` in all.
///
/// ```
/// use dirgwako::linear_buckets;
/// assert_eq!(linear_buckets(100, 50, 3).unwrap(), [100, 150, 200]);
/// assert_eq!(linear_buckets(0.5, 0.25, 3).unwrap(), [0.5, 0.75, 1.0]);
/// assert_eq!(linear_buckets(100, 0, 3).unwrap_err().number(), Some(10));
/// ```
///
/// # Errors
///
/// 10: they are no bounds, or none.
pub fn linear_buckets<T: Bound>(start: T, width: T, count: usize) -> Result<Vec<T>> {
    let bounds = if count == 0 { None } else { start.rises_by(width, count) };
    bounds.ok_or_else(|| Error::of(10, "linear_buckets"))
}

/// `start`, and further bounds, each `factor` times the one before: `count` in all.
///
/// ```
/// use dirgwako::exponential_buckets;
/// assert_eq!(exponential_buckets(100, 10, 3).unwrap(), [100, 1_000, 10_000]);
/// assert_eq!(exponential_buckets(0.001, 2.0, 3).unwrap(), [0.001, 0.002, 0.004]);
/// assert_eq!(exponential_buckets(0, 2, 3).unwrap_err().number(), Some(10));
/// ```
///
/// # Errors
///
/// 10: they are no bounds, or none.
pub fn exponential_buckets<T: Bound>(start: T, factor: T, count: usize) -> Result<Vec<T>> {
    let bounds = if count == 0 { None } else { start.rises_times(factor, count) };
    bounds.ok_or_else(|| Error::of(10, "exponential_buckets"))
}

#[cfg(test)]
mod tests {
    use super::*;

    fn bounds(name: &str, buckets: impl Into<Buckets>) -> Option<Vec<u64>> {
        HistogramOpts::new(name, "Of it.").buckets(buckets).bounds().ok()
    }

    /// Seconds become microseconds, to the nearest; whole numbers stay; what would be lost in
    /// silence is refused.
    #[test]
    fn bounds_are_counted() {
        assert_eq!(
            bounds("a_seconds", vec![0.005, 0.30000000000000004]),
            Some(vec![5000, 300_000])
        );
        assert_eq!(bounds("a_seconds", vec![0.005, f64::INFINITY]), Some(vec![5000]));
        assert_eq!(bounds("a_seconds", vec![5000, 6000]), Some(vec![5000, 6000]));
        assert_eq!(bounds("a_bytes", vec![1.0, 2048.0]), Some(vec![1, 2048]));
        assert_eq!(bounds("a_bytes", vec![0.5, 1.0]), None);
        assert_eq!(bounds("a_seconds", vec![1e-7, 2e-7]), None);
        assert_eq!(bounds("a_seconds", vec![-1.0]), None);
        assert_eq!(bounds("a_seconds", vec![f64::NAN]), None);
        assert_eq!(bounds("a_bytes", vec![2, 1]), None);
        assert_eq!(bounds("a_bytes", vec![1 << 48]), None);
        assert_eq!(
            bounds("a_bytes", (1..=24).collect::<Vec<u64>>()).map(|all| all.len()),
            Some(24)
        );
        assert_eq!(bounds("a_bytes", (1..=25).collect::<Vec<u64>>()), None);
    }

    /// Without bounds of its own a histogram has those of seconds, in what it counts: microseconds
    /// where its name does not say.
    #[test]
    fn default_bounds() {
        let micros = [
            5000, 10_000, 25_000, 50_000, 100_000, 250_000, 500_000, 1_000_000, 2_500_000,
            5_000_000, 10_000_000,
        ];
        assert_eq!(HistogramOpts::new("a_seconds", "Of it.").bounds().unwrap(), micros);
        assert_eq!(HistogramOpts::new("a_micros", "Of it.").bounds().unwrap(), micros);
        assert_eq!(
            HistogramOpts::new("a_seconds", "Of it.").digits(9).bounds().unwrap(),
            micros.map(|bound| bound * 1000)
        );
    }
}
