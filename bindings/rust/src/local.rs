//! Metrics of one thread, as `prometheus::local`: what they count no scrape shows until they are
//! flushed, which their end does too.
//!
//! A scrape may fall between the flushes of two of them, so that what they count is not of one
//! moment. They may go to another thread, and are not shared:
//!
//! ```compile_fail
//! let hits = dirgwako::IntCounter::new("hits_total", "Hits.").unwrap().local();
//! std::thread::scope(|scope| { scope.spawn(|| hits.inc()); });
//! ```

use crate::children::Children;
use crate::counter::IntCounter;
use crate::histogram::Histogram;
use crate::sys::Change;
use crate::vec::{HistogramVec, IntCounterVec};
use std::cell::{Cell, RefCell};
use std::time::Instant;

/// What is flushed.
pub trait LocalMetric {
    /// Adds what was counted to the metric that all threads share.
    fn flush(&self);
}

/// A counter of one thread.
///
/// ```
/// let hits = dirgwako::IntCounter::new("hits_total", "Hits.").unwrap();
/// let local = hits.local();
/// local.inc_by(3);
/// assert_eq!(hits.get(), 0);
/// local.flush();
/// assert_eq!(hits.get(), 3);
/// ```
#[derive(Debug)]
pub struct LocalIntCounter {
    counter: IntCounter,
    by: Cell<u64>,
}

/// The peer's local counter of floats is one of whole numbers here.
pub type LocalCounter = LocalIntCounter;
/// The family of it.
pub type LocalCounterVec = LocalIntCounterVec;

impl LocalIntCounter {
    pub(crate) fn new(counter: IntCounter) -> LocalIntCounter {
        LocalIntCounter { counter, by: Cell::new(0) }
    }

    /// Adds 1.
    #[inline]
    pub fn inc(&self) {
        self.inc_by(1);
    }

    /// Adds a number.
    #[inline]
    pub fn inc_by(&self, by: u64) {
        self.by.set(self.by.get().saturating_add(by));
    }

    /// What is not flushed.
    pub fn get(&self) -> u64 {
        self.by.get()
    }

    /// Forgets what is not flushed.
    pub fn reset(&self) {
        self.by.set(0);
    }

    /// Adds what was counted to the counter that all threads share.
    pub fn flush(&self) {
        let by = self.by.take();
        if by > 0 {
            self.counter.inc_by(by);
        }
    }
}

impl Clone for LocalIntCounter {
    /// Another one of the same counter, which has counted nothing.
    fn clone(&self) -> LocalIntCounter {
        LocalIntCounter::new(self.counter.clone())
    }
}

impl LocalMetric for LocalIntCounter {
    fn flush(&self) {
        LocalIntCounter::flush(self);
    }
}

impl Drop for LocalIntCounter {
    fn drop(&mut self) {
        self.flush();
    }
}

/// How many observations wait at most, before they are flushed.
const LISTED: usize = 64;

/// A histogram of one thread. It flushes by itself at each 64th observation; each flush is one
/// version, which scrapes see whole.
///
/// ```
/// # use dirgwako::{Histogram, HistogramOpts};
/// let opts = HistogramOpts::new("answer_bytes", "Bytes.").buckets(vec![100, 1000]);
/// let bytes = Histogram::with_opts(opts).unwrap();
/// let local = bytes.local();
/// local.observe(300);
/// assert_eq!((local.get_sample_sum(), bytes.get_sample_sum()), (300, 0));
/// local.flush();
/// assert_eq!((local.get_sample_sum(), bytes.get_sample_sum()), (0, 300));
/// ```
#[derive(Debug)]
pub struct LocalHistogram {
    histogram: Histogram,
    values: RefCell<Vec<u64>>,
}

impl LocalHistogram {
    pub(crate) fn new(histogram: Histogram) -> LocalHistogram {
        LocalHistogram { histogram, values: RefCell::new(Vec::with_capacity(LISTED)) }
    }

    /// Counts a value.
    #[inline]
    pub fn observe(&self, value: u64) {
        let mut values = self.values.borrow_mut();
        values.push(value);
        if values.len() == LISTED {
            self.flush_values(&mut values);
        }
    }

    /// A timer, which observes how long it was there, and flushes.
    pub fn start_timer(&self) -> LocalHistogramTimer {
        LocalHistogramTimer { local: Some(self.clone()), start: Instant::now() }
    }

    /// Observes how long a call takes.
    pub fn observe_closure_duration<F: FnOnce() -> T, T>(&self, call: F) -> T {
        let start = Instant::now();
        let made = call();
        self.observe(self.histogram.units(start.elapsed()));
        made
    }

    /// Forgets what is not flushed.
    pub fn clear(&self) {
        self.values.borrow_mut().clear();
    }

    /// Adds what was counted to the histogram that all threads share.
    pub fn flush(&self) {
        self.flush_values(&mut self.values.borrow_mut());
    }

    /// The sum of what is not flushed.
    pub fn get_sample_sum(&self) -> u64 {
        self.values.borrow().iter().fold(0, |sum, value| sum.saturating_add(*value))
    }

    /// How many values are not flushed.
    pub fn get_sample_count(&self) -> u64 {
        self.values.borrow().len() as u64
    }

    fn flush_values(&self, values: &mut Vec<u64>) {
        let Some(bound) = self.histogram.bound() else {
            values.drain(..).for_each(|value| self.histogram.observe(value));
            return;
        };
        for some in values.chunks(LISTED.min(bound.pool().abi.changes)) {
            let mut list = [Change { board: 0, kind: 0, slot: 0, by: 0, value: 0 }; LISTED];
            for (change, value) in list.iter_mut().zip(some) {
                *change = bound.id.observed(*value);
            }
            if bound.pool().publish(bound.board, &list[..some.len()]) != 0 {
                // One of them is too large: the others count.
                some.iter().for_each(|value| self.histogram.observe(*value));
            }
        }
        values.clear();
    }
}

impl Clone for LocalHistogram {
    /// Another one of the same histogram, which has counted nothing.
    fn clone(&self) -> LocalHistogram {
        LocalHistogram::new(self.histogram.clone())
    }
}

impl LocalMetric for LocalHistogram {
    fn flush(&self) {
        LocalHistogram::flush(self);
    }
}

impl Drop for LocalHistogram {
    fn drop(&mut self) {
        self.flush();
    }
}

/// Observes how long it was there, at its end.
#[must_use = "a timer that is dropped at once has observed nothing"]
#[derive(Debug)]
pub struct LocalHistogramTimer {
    local: Option<LocalHistogram>,
    start: Instant,
}

impl LocalHistogramTimer {
    /// Ends it.
    pub fn observe_duration(self) {
        drop(self);
    }

    /// Ends it, and tells the seconds.
    pub fn stop_and_record(self) -> f64 {
        self.start.elapsed().as_secs_f64()
    }

    /// Ends it without an observation, and tells the seconds.
    pub fn stop_and_discard(mut self) -> f64 {
        self.local = None;
        self.start.elapsed().as_secs_f64()
    }
}

impl Drop for LocalHistogramTimer {
    fn drop(&mut self) {
        if let Some(local) = self.local.take() {
            local.observe(local.histogram.units(self.start.elapsed()));
        }
    }
}

/// A family of counters of one thread.
///
/// ```
/// # use dirgwako::{IntCounterVec, Opts};
/// let answers = IntCounterVec::new(Opts::new("answers_total", "Answers."), &["code"]).unwrap();
/// let mut local = answers.local();
/// local.with_label_values(&["200"]).inc();
/// local.flush();
/// assert_eq!(answers.with_label_values(&["200"]).get(), 1);
/// ```
pub struct LocalIntCounterVec {
    vec: IntCounterVec,
    children: Children<LocalIntCounter>,
}

impl IntCounterVec {
    /// The family for one thread.
    pub fn local(&self) -> LocalIntCounterVec {
        LocalIntCounterVec { vec: self.clone(), children: Children::default() }
    }
}

impl LocalIntCounterVec {
    /// The child of these label values.
    ///
    /// # Panics
    ///
    /// Where there are not as many values as labels, as in `prometheus`.
    pub fn with_label_values<'a>(&'a mut self, values: &[&str]) -> &'a mut LocalIntCounter {
        let vec = &self.vec;
        self.children.get_or_insert(values, || vec.with_label_values(values).local())
    }

    /// Ends the child of these label values, which is flushed.
    ///
    /// # Errors
    ///
    /// [`Error::Msg`](crate::Error::Msg): there is none.
    pub fn remove_label_values(&mut self, values: &[&str]) -> crate::Result<()> {
        removed(self.children.remove(values))
    }

    /// Flushes all children.
    pub fn flush(&self) {
        self.children.iter().for_each(|(_, child)| child.flush());
    }
}

impl LocalMetric for LocalIntCounterVec {
    fn flush(&self) {
        LocalIntCounterVec::flush(self);
    }
}

/// A family of histograms of one thread, likewise.
pub struct LocalHistogramVec {
    vec: HistogramVec,
    children: Children<LocalHistogram>,
}

impl HistogramVec {
    /// The family for one thread.
    pub fn local(&self) -> LocalHistogramVec {
        LocalHistogramVec { vec: self.clone(), children: Children::default() }
    }
}

impl LocalHistogramVec {
    /// The child of these label values.
    ///
    /// # Panics
    ///
    /// Where there are not as many values as labels, as in `prometheus`.
    pub fn with_label_values<'a>(&'a mut self, values: &[&str]) -> &'a LocalHistogram {
        let vec = &self.vec;
        self.children.get_or_insert(values, || vec.with_label_values(values).local())
    }

    /// Ends the child of these label values, which is flushed.
    ///
    /// # Errors
    ///
    /// [`Error::Msg`](crate::Error::Msg): there is none.
    pub fn remove_label_values(&mut self, values: &[&str]) -> crate::Result<()> {
        removed(self.children.remove(values))
    }

    /// Flushes all children.
    pub fn flush(&self) {
        self.children.iter().for_each(|(_, child)| child.flush());
    }
}

impl LocalMetric for LocalHistogramVec {
    fn flush(&self) {
        LocalHistogramVec::flush(self);
    }
}

fn removed<T>(child: Option<T>) -> crate::Result<()> {
    match child {
        Some(_) => Ok(()),
        None => Err(crate::Error::Msg("no child of these label values was used here".into())),
    }
}
