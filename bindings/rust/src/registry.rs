//! Registries: families and children, on boards that come by themselves.

use crate::bound::{Bound, NOBODY};
use crate::error::{Error, Result};
use crate::ids::Id;
use crate::opts::Opts;
use crate::pool::{lock, Pool};
use crate::scrape::Refusals;
use crate::sys::{self, FamilyId, Page};
use std::collections::HashMap;
use std::fmt;
use std::sync::{Arc, Mutex, OnceLock};

/// What a mutex guards: registrations and scrapes. Counting never meets it.
pub(crate) struct State {
    pub page: Page,
    /// How many boards the tallies have.
    boards: usize,
    pub buffer: Vec<u8>,
    pub numbers: Vec<u64>,
    pub refusals: Refusals,
}

pub(crate) struct Inner {
    pub pool: Pool,
    prefix: Option<String>,
    labels: Vec<(String, String)>,
    pub state: Mutex<State>,
}

/// Metrics that are scraped together, as `prometheus::Registry`. A clone is the same registry.
///
/// It is a page of boards, which begins with one and gets a further one, up to 96, where every slot
/// of a kind is used. All series of a board are of one moment in each scrape. Metrics of one group
/// ([`Opts::group`](crate::Opts::group)) are on one board as long as it has room.
///
/// ```
/// use dirgwako::{IntCounter, Registry};
/// let registry = Registry::new();
/// let hits = IntCounter::new("hits_total", "Hits.").unwrap();
/// registry.register(Box::new(hits.clone())).unwrap();
/// hits.inc();
/// let text = registry.gather_text().unwrap();
/// assert_eq!(text, "# HELP hits_total Hits.\n# TYPE hits_total counter\nhits_total 1\n");
/// ```
#[derive(Clone)]
pub struct Registry(pub(crate) Arc<Inner>);

impl fmt::Debug for Registry {
    fn fmt(&self, f: &mut fmt::Formatter<'_>) -> fmt::Result {
        f.debug_struct("Registry")
            .field("prefix", &self.0.prefix)
            .field("labels", &self.0.labels)
            .finish_non_exhaustive()
    }
}

impl Default for Registry {
    fn default() -> Registry {
        Registry::new()
    }
}

/// What can be registered: the metrics of this crate alone, since numbers of others would be of
/// another moment.
pub trait Collector: Send + Sync + sealed::Sealed {
    #[doc(hidden)]
    fn join(&self, registry: &Registry) -> Result<()>;
}

pub(crate) mod sealed {
    pub trait Sealed {}
}

/// What a registry is built by: [`Registry::builder`].
#[derive(Clone, Debug, Default)]
pub struct Builder {
    tallied: bool,
    prefix: Option<String>,
    labels: HashMap<String, String>,
}

impl Builder {
    /// Lets threads count into tallies, which each scrape publishes: an increment costs a quarter
    /// or less, and waits while a scrape is taken.
    ///
    /// Without it each count is on the board at once, and nobody waits unless as many threads as
    /// the library is for are within a count at one instant; that a scrape is of one moment is then
    /// proved. With tallies it rests on locks as well, which are tested and not proved: a scrape
    /// takes all tallies, publishes them, is taken, and lets go, some ten microseconds or more in
    /// which nobody counts.
    ///
    /// ```
    /// use dirgwako::{register_int_counter_with_registry, Registry};
    /// let registry = Registry::builder().tallied().build().unwrap();
    /// let packets =
    ///     register_int_counter_with_registry!("packets_total", "Packets.", registry).unwrap();
    /// packets.inc_by(3);
    /// assert_eq!(packets.get(), 3);
    /// ```
    pub fn tallied(mut self) -> Builder {
        self.tallied = true;
        self
    }

    /// Puts this and `_` in front of each name.
    pub fn prefix<S: Into<String>>(mut self, prefix: S) -> Builder {
        self.prefix = Some(prefix.into());
        self
    }

    /// Gives each series this label, behind its own.
    pub fn label<S1: Into<String>, S2: Into<String>>(mut self, name: S1, value: S2) -> Builder {
        self.labels.insert(name.into(), value.into());
        self
    }

    /// The registry.
    ///
    /// # Errors
    ///
    /// [`Error::Library`]: the program is linked with a library of another version. 6: out of
    /// memory. [`Error::Msg`]: the prefix is empty.
    pub fn build(self) -> Result<Registry> {
        if self.prefix.as_deref() == Some("") {
            return Err(Error::Msg("a registry's prefix is empty".into()));
        }
        let refused = |number| Error::of(number, "a registry");
        let abi = sys::abi().map_err(Error::Library)?;
        let mut page = Page::new(1).map_err(refused)?;
        let pool = Pool::new(&mut page, abi, self.tallied).map_err(refused)?;
        let mut labels: Vec<(String, String)> = self.labels.into_iter().collect();
        labels.sort();
        let state = State {
            page,
            boards: 0,
            buffer: vec![0; 4096],
            numbers: vec![0; abi.numbers],
            refusals: Refusals::default(),
        };
        Ok(Registry(Arc::new(Inner {
            pool,
            prefix: self.prefix,
            labels,
            state: Mutex::new(state),
        })))
    }
}

/// Where the value of a family's label comes from.
#[derive(Clone, Debug)]
enum Source {
    Fixed(String),
    Own(usize),
}

/// A family that is registered.
#[derive(Clone, Debug)]
pub struct Family {
    id: FamilyId,
    sources: Vec<Source>,
}

impl Registry {
    /// An empty registry of one board.
    ///
    /// # Panics
    ///
    /// Where there is no memory for it, or the program is linked with a library of another version:
    /// [`Registry::try_new`] refuses.
    pub fn new() -> Registry {
        match Registry::try_new() {
            Ok(registry) => registry,
            Err(error) => panic!("{error}"),
        }
    }

    /// The same, without a panic.
    ///
    /// # Errors
    ///
    /// As [`Builder::build`].
    pub fn try_new() -> Result<Registry> {
        Registry::builder().build()
    }

    /// A registry by its parts.
    ///
    /// ```
    /// # use dirgwako::Registry;
    /// let registry = Registry::builder().prefix("shop").label("zone", "a").build().unwrap();
    /// # let _ = registry;
    /// ```
    pub fn builder() -> Builder {
        Builder::default()
    }

    /// A registry that puts a prefix and `_` in front of each name, and gives each series these
    /// labels, behind its own.
    ///
    /// ```
    /// use dirgwako::{labels, register_int_counter_with_registry, Registry};
    /// let labels = labels! {"zone".to_string() => "a".to_string()};
    /// let registry = Registry::new_custom(Some("shop".into()), Some(labels)).unwrap();
    /// register_int_counter_with_registry!("hits_total", "Hits.", registry).unwrap().inc();
    /// let text = registry.gather_text().unwrap();
    /// assert!(text.ends_with("\nshop_hits_total{zone=\"a\"} 1\n"));
    /// ```
    ///
    /// # Errors
    ///
    /// As [`Builder::build`].
    pub fn new_custom(
        prefix: Option<String>,
        labels: Option<HashMap<String, String>>,
    ) -> Result<Registry> {
        Builder { tallied: false, prefix, labels: labels.unwrap_or_default() }.build()
    }

    /// Registers a metric. What it counted before is in the next scrape. A metric is registered
    /// once, at one registry.
    ///
    /// # Errors
    ///
    /// 19: it is registered, or another metric has its name. 23: the registry has 128 families. 22:
    /// no slot is left on 96 boards. 6: out of memory. 7, 8, 9: its labels and those of the
    /// registry are none together. Of a family whose children do not all find room, 22 or 46: it is
    /// registered, and those without room count for nobody. Of a metric of its own, after 22 and 6
    /// its name may stay taken (19).
    pub fn register(&self, metric: Box<dyn Collector>) -> Result<()> {
        metric.join(self)
    }

    /// How many boards there are.
    pub fn boards(&self) -> usize {
        lock(&self.0.state).page.boards().unwrap_or(0)
    }

    /// How many calls were refused that could not say so: counts that no scrape shows, since a
    /// number would have passed 2^48 - 1, and `with_label_values` that found no room, as well as
    /// each count by the handle that it answered. From the first on each scrape has them as
    /// `dirgwako_refused_total`.
    ///
    /// ```
    /// use dirgwako::{register_int_counter_with_registry, Registry};
    /// let registry = Registry::new();
    /// let a = register_int_counter_with_registry!("a_total", "A.", registry).unwrap();
    /// a.inc_by(1 << 48);
    /// assert_eq!((a.get(), registry.refused()), (0, 1));
    /// assert!(registry.gather_text().unwrap().contains("\ndirgwako_refused_total 1\n"));
    /// ```
    pub fn refused(&self) -> u64 {
        self.0.pool.refused()
    }

    /// The name with the prefix.
    fn full_name(&self, name: &str) -> String {
        match &self.0.prefix {
            Some(prefix) => format!("{prefix}_{name}"),
            None => name.to_string(),
        }
    }

    /// Labels in the order of the text of `prometheus`: the metric's own by their names, and behind
    /// them the registry's.
    fn labels<'a>(&'a self, opts: &'a Opts, own: &'a [String]) -> Vec<(&'a str, Source)> {
        let fixed =
            |(name, value): (&'a String, &'a String)| (name.as_str(), Source::Fixed(value.clone()));
        let mut labels: Vec<(&str, Source)> = opts.const_labels.iter().map(fixed).collect();
        labels.extend(own.iter().enumerate().map(|(at, name)| (name.as_str(), Source::Own(at))));
        labels.sort_by(|one, other| one.0.cmp(other.0));
        labels.extend(
            self.0.labels.iter().map(|(name, value)| (name.as_str(), Source::Fixed(value.clone()))),
        );
        labels
    }

    /// Registers a family of handles `I`.
    pub(crate) fn family<I: Id>(
        &self,
        opts: &Opts,
        own: &[String],
        bounds: &[u64],
        digits: usize,
    ) -> Result<Family> {
        let mut state = lock(&self.0.state);
        self.family_of::<I>(&mut state, opts, own, bounds, digits)
    }

    pub(crate) fn family_of<I: Id>(
        &self,
        state: &mut State,
        opts: &Opts,
        own: &[String],
        bounds: &[u64],
        digits: usize,
    ) -> Result<Family> {
        let (name, labels) = (self.full_name(&opts.fq_name()), self.labels(opts, own));
        let names: Vec<&str> = labels.iter().map(|label| label.0).collect();
        let group = opts.group as usize;
        let wanted =
            sys::Family { name: &name, help: &opts.help, labels: &names, bounds, digits, group };
        let id = I::family(&mut state.page, &wanted).map_err(|number| Error::of(number, &name))?;
        Ok(Family { id, sources: labels.into_iter().map(|label| label.1).collect() })
    }

    /// The child of a family by the values of its own labels: where it is.
    pub(crate) fn child<I: Id>(
        &self,
        name: &str,
        family: &Family,
        values: &[&str],
    ) -> Result<Bound<I>> {
        let mut state = lock(&self.0.state);
        let (id, board) = self.child_of(&mut state, name, family, values)?;
        Ok(Bound { id, board, registry: self.clone() })
    }

    pub(crate) fn child_of<I: Id>(
        &self,
        state: &mut State,
        name: &str,
        family: &Family,
        values: &[&str],
    ) -> Result<(I, usize)> {
        let refused = |number| Error::of(number, name);
        let value = |source: &'_ Source| -> String {
            match source {
                Source::Fixed(value) => value.clone(),
                Source::Own(at) => values.get(*at).copied().unwrap_or_default().to_string(),
            }
        };
        let all: Vec<String> = family.sources.iter().map(value).collect();
        let all: Vec<&str> = all.iter().map(String::as_str).collect();
        let id = I::of(&mut state.page, &family.id, &all).map_err(refused)?;
        let board = state.page.board_of(id.board()).map_err(refused)?;
        while state.boards <= board {
            self.0.pool.grow(state.boards);
            state.boards += 1;
        }
        Ok((id, board))
    }

    /// Where a handle is that counts for nobody.
    pub(crate) fn nobody<I: Id>(&self) -> Bound<I> {
        Bound { id: I::nobody(), board: NOBODY, registry: self.clone() }
    }
}

static DEFAULT: OnceLock<Registry> = OnceLock::new();

/// The registry of the macros without `_with_registry`, of [`register`] and of [`gather`]. It has
/// no metrics of its own.
///
/// # Panics
///
/// At its first call, as [`Registry::new`].
pub fn default_registry() -> &'static Registry {
    DEFAULT.get_or_init(Registry::new)
}

/// Makes this the default registry, if there is none yet: a program that wants one with tallies
/// begins with this. Not in `prometheus`.
///
/// ```
/// use dirgwako::Registry;
/// dirgwako::set_default_registry(Registry::builder().tallied().build().unwrap()).unwrap();
/// assert!(dirgwako::set_default_registry(Registry::new()).is_err());
/// ```
///
/// # Errors
///
/// [`Error::Msg`]: there is one, that was set or used before.
pub fn set_default_registry(registry: Registry) -> Result<()> {
    DEFAULT
        .set(registry)
        .map_err(|_| Error::Msg("the default registry was set or used before".into()))
}

/// Registers a metric at the default registry.
///
/// # Errors
///
/// As [`Registry::register`].
pub fn register(metric: Box<dyn Collector>) -> Result<()> {
    default_registry().register(metric)
}

/// Scrapes the default registry.
pub fn gather() -> crate::Gathered {
    default_registry().gather()
}
