//! Families of metrics, by label values.

use crate::children::{hash, Children};
use crate::counter::IntCounter;
use crate::error::{Error, Result};
use crate::gauge::IntGauge;
use crate::histogram::Histogram;
use crate::names;
use crate::opts::Opts;
use crate::pool::lock;
use crate::registry::{sealed::Sealed, Collector, Family, Registry};
use std::collections::HashMap;
use std::fmt;
use std::sync::atomic::{AtomicBool, AtomicU32, Ordering::Relaxed};
use std::sync::{Arc, Mutex, OnceLock, RwLock};

/// A metric that a family has many of.
pub trait Child: Clone + Send + Sync + Sealed + 'static {
    #[doc(hidden)]
    type Opts: Clone + Send + Sync + 'static;
    #[doc(hidden)]
    fn common(opts: &mut Self::Opts) -> &mut Opts;
    #[doc(hidden)]
    fn check(opts: &Self::Opts, labels: &[String]) -> Result<()>;
    #[doc(hidden)]
    fn make(opts: Self::Opts) -> Result<Self>;
    #[doc(hidden)]
    fn claim(&self) -> Result<()>;
    #[doc(hidden)]
    fn unclaim(&self);
    #[doc(hidden)]
    fn family(registry: &Registry, opts: &Self::Opts, labels: &[String]) -> Result<Family>;
    #[doc(hidden)]
    fn join_family(&self, registry: &Registry, family: &Family, values: &[&str]) -> Result<()>;
    #[doc(hidden)]
    fn join_nobody(&self, registry: &Registry);
}

/// Registers a metric that is a family of its own.
pub(crate) fn join_alone<M: Child>(metric: &M, registry: &Registry, opts: &M::Opts) -> Result<()> {
    metric.claim()?;
    let joined = M::family(registry, opts, &[])
        .and_then(|family| metric.join_family(registry, &family, &[]));
    if joined.is_err() {
        metric.unclaim();
    }
    joined
}

struct Inner<M: Child> {
    opts: M::Opts,
    name: String,
    labels: Vec<String>,
    bound: OnceLock<(Registry, Family)>,
    claimed: AtomicBool,
    children: RwLock<Children<M>>,
    making: Mutex<()>,
    /// 22 or 46, once it was refused: no room ever comes back.
    full: AtomicU32,
}

/// A family of metrics that differ by label values, as `prometheus`'s `MetricVec`. A child is never
/// removed: its slot would not come back.
///
/// A family has 256 children at most. Boards come by themselves where one is full.
///
/// ```
/// use dirgwako::register_int_counter_vec;
/// let answers = register_int_counter_vec!("answers_total", "Answers.", &["code"]).unwrap();
/// answers.with_label_values(&["200"]).inc();
/// assert_eq!(answers.with_label_values(&["200"]).get(), 1);
/// ```
pub struct MetricVec<M: Child>(Arc<Inner<M>>);

/// A family of counters.
pub type IntCounterVec = MetricVec<IntCounter>;
/// A family of gauges.
pub type IntGaugeVec = MetricVec<IntGauge>;
/// A family of histograms.
pub type HistogramVec = MetricVec<Histogram>;
/// A family of counters, which are of whole numbers here.
pub type CounterVec = IntCounterVec;
/// A family of gauges, which are of whole numbers here.
pub type GaugeVec = IntGaugeVec;

impl<M: Child> Clone for MetricVec<M> {
    fn clone(&self) -> MetricVec<M> {
        MetricVec(self.0.clone())
    }
}

impl<M: Child> fmt::Debug for MetricVec<M> {
    fn fmt(&self, f: &mut fmt::Formatter<'_>) -> fmt::Result {
        f.debug_struct("MetricVec")
            .field("name", &self.0.name)
            .field("labels", &self.0.labels)
            .finish_non_exhaustive()
    }
}

impl<M: Child> MetricVec<M> {
    /// A family that is not registered yet.
    ///
    /// # Errors
    ///
    /// As `with_opts` of its metric; and 1 to 4, 7, 9: a label is none.
    pub fn new(mut opts: M::Opts, label_names: &[&str]) -> Result<MetricVec<M>> {
        let labels: Vec<String> = label_names.iter().map(|label| label.to_string()).collect();
        M::check(&opts, &labels)?;
        let common = M::common(&mut opts);
        common.variable_labels = Vec::new();
        let name = common.fq_name();
        Ok(MetricVec(Arc::new(Inner {
            opts,
            name,
            labels,
            bound: OnceLock::new(),
            claimed: AtomicBool::new(false),
            children: RwLock::default(),
            making: Mutex::new(()),
            full: AtomicU32::new(0),
        })))
    }

    /// The child of these label values, in the order of the labels. A new one takes a slot.
    ///
    /// # Errors
    ///
    /// 21: there are not as many values as labels. 3: a value is too long. 46: the family has 256
    /// children. 22: no slot is left on 96 boards. 6: out of memory.
    pub fn get_metric_with_label_values(&self, values: &[&str]) -> Result<M> {
        let expect = self.0.labels.len();
        if values.len() != expect {
            return Err(Error::InconsistentCardinality {
                expect,
                got: values.len(),
                name: self.0.name.clone(),
            });
        }
        match self.find(values) {
            Some(child) => Ok(child),
            None => self.make(values),
        }
    }

    /// The child of these label values by their labels.
    ///
    /// # Errors
    ///
    /// As [`MetricVec::get_metric_with_label_values`]; 21 also where a label has another name.
    pub fn get_metric_with(&self, labels: &HashMap<&str, &str>) -> Result<M> {
        self.get_metric_with_label_values(&self.values(labels)?)
    }

    /// The child of these label values. Where there is no room for it, or a value is too long, it
    /// is a handle that counts for nobody, and [`Registry::refused`] tells: a value that a client
    /// chose ends no service.
    ///
    /// # Panics
    ///
    /// Where there are not as many values as labels, as in `prometheus`.
    pub fn with_label_values(&self, values: &[&str]) -> M {
        self.or_nobody(self.get_metric_with_label_values(values))
    }

    /// The child of these label values by their labels, as [`MetricVec::with_label_values`].
    ///
    /// # Panics
    ///
    /// Where these are not the family's labels, as in `prometheus`.
    pub fn with(&self, labels: &HashMap<&str, &str>) -> M {
        self.or_nobody(self.get_metric_with(labels))
    }

    fn or_nobody(&self, child: Result<M>) -> M {
        match child {
            Ok(child) => child,
            Err(error @ Error::InconsistentCardinality { .. }) => panic!("{error}"),
            Err(error) => match M::make(self.0.opts.clone()) {
                Ok(nobody) => {
                    if let Some((registry, _)) = self.0.bound.get() {
                        registry.0.pool.refuse(1);
                        let _ = nobody.claim();
                        nobody.join_nobody(registry);
                    }
                    nobody
                }
                // The same opts were taken when the family was made.
                Err(_) => panic!("{error}"),
            },
        }
    }

    fn values<'a>(&self, labels: &HashMap<&str, &'a str>) -> Result<Vec<&'a str>> {
        let expect = self.0.labels.len();
        let values: Vec<&str> =
            self.0.labels.iter().filter_map(|label| labels.get(label.as_str()).copied()).collect();
        if labels.len() != expect || values.len() != expect {
            let got = if labels.len() == expect { values.len() } else { labels.len() };
            return Err(Error::InconsistentCardinality { expect, got, name: self.0.name.clone() });
        }
        Ok(values)
    }

    fn find(&self, values: &[&str]) -> Option<M> {
        let children = self.0.children.read().unwrap_or_else(|poisoned| poisoned.into_inner());
        children.get(hash(values), values).cloned()
    }

    #[cold]
    fn make(&self, values: &[&str]) -> Result<M> {
        let _making = lock(&self.0.making);
        if let Some(child) = self.find(values) {
            return Ok(child);
        }
        match self.0.full.load(Relaxed) {
            0 => {}
            number => return Err(Error::of(number, &self.0.name)),
        }
        names::check_values(values, &self.0.name)?;
        let child = M::make(self.0.opts.clone())?;
        if let Some((registry, family)) = self.0.bound.get() {
            child.claim()?;
            if let Err(error) = child.join_family(registry, family, values) {
                if let Some(number @ (22 | 46)) = error.number() {
                    self.0.full.store(number, Relaxed);
                }
                return Err(error);
            }
        }
        let mut children = self.0.children.write().unwrap_or_else(|poisoned| poisoned.into_inner());
        children.get_or_insert(values, || child.clone());
        Ok(child)
    }
}

impl<M: Child> Sealed for MetricVec<M> {}

impl<M: Child> Collector for MetricVec<M> {
    fn join(&self, registry: &Registry) -> Result<()> {
        let _making = lock(&self.0.making);
        if self.0.claimed.swap(true, Relaxed) {
            return Err(Error::AlreadyReg { name: self.0.name.clone() });
        }
        let family = match M::family(registry, &self.0.opts, &self.0.labels) {
            Ok(family) => family,
            Err(error) => {
                self.0.claimed.store(false, Relaxed);
                return Err(error);
            }
        };
        let mut joined = Ok(());
        let children = self.0.children.read().unwrap_or_else(|poisoned| poisoned.into_inner());
        for (values, child) in children.iter() {
            let values: Vec<&str> = values.iter().map(String::as_str).collect();
            child.claim()?;
            if let Err(error) = child.join_family(registry, &family, &values) {
                child.join_nobody(registry);
                joined = joined.and(Err(error));
            }
        }
        // Nobody else has claimed it.
        let _ = self.0.bound.set((registry.clone(), family));
        joined
    }
}
