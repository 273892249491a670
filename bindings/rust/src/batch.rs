//! Several changes as one version.

use crate::bound::{Bound, NOBODY};
use crate::counter::IntCounter;
use crate::error::{Error, Result};
use crate::gauge::IntGauge;
use crate::histogram::Histogram;
use crate::registry::Registry;
use crate::sys::{Change, DOWN, INC, OBSERVE, UP};
use std::sync::Arc;
use std::time::Duration;

/// So many changes need no memory.
const FEW: usize = 16;

/// Changes in a row: few of them in place.
struct List {
    few: [Change; FEW],
    len: usize,
    many: Vec<Change>,
}

impl List {
    fn new() -> List {
        List {
            few: [Change { board: 0, kind: INC, slot: 0, by: 0, value: 0 }; FEW],
            len: 0,
            many: Vec::new(),
        }
    }

    fn all(&mut self) -> &mut [Change] {
        if self.many.is_empty() {
            &mut self.few[..self.len]
        } else {
            &mut self.many
        }
    }

    fn reserve(&mut self, more: usize) {
        if self.len + more > FEW {
            self.many.reserve(self.len + more);
            if self.many.is_empty() {
                self.many.extend_from_slice(&self.few[..self.len]);
            }
        }
    }

    /// Adds a change, to one of the same number where there is one.
    fn push(&mut self, change: Change) {
        let same = |it: &&mut Change| {
            it.kind != OBSERVE && it.kind == change.kind && it.slot == change.slot
        };
        if let Some(it) = self.all().iter_mut().find(same) {
            it.by = it.by.saturating_add(change.by);
            return;
        }
        self.reserve(1);
        if self.many.is_empty() {
            self.few[self.len] = change;
        } else {
            self.many.push(change);
        }
        self.len += 1;
    }
}

/// The metric that an error names.
#[derive(Clone)]
enum Named {
    Counter(IntCounter),
    Gauge(IntGauge),
    Histogram(Histogram),
}

impl Named {
    fn name(&self) -> String {
        match self {
            Named::Counter(it) => it.name(),
            Named::Gauge(it) => it.name(),
            Named::Histogram(it) => it.name(),
        }
    }
}

/// What a gauge does: it moves by a number, or to one.
struct Move {
    gauge: IntGauge,
    is_set: bool,
    by: i64,
}

impl Move {
    /// Changes of it are moved one at a time, by who has the right to it.
    fn is_alone(&self) -> bool {
        self.is_set || self.gauge.is_set()
    }
}

/// The changes of one version: [`Registry::publish`]. Changes of one number join, in their order.
///
/// ```
/// use dirgwako::{register_int_gauge_with_registry, Batch, IntGauge, Registry};
/// fn moves(batch: &mut Batch, from: &IntGauge, to: &IntGauge, by: i64) {
///     batch.sub(from, by);
///     batch.add(to, by);
/// }
/// let registry = Registry::new();
/// let left = register_int_gauge_with_registry!("left", "Left.", registry).unwrap();
/// let right = register_int_gauge_with_registry!("right", "Right.", registry).unwrap();
/// registry.publish(|batch| moves(batch, &left, &right, 5)).unwrap();
/// assert_eq!((left.get(), right.get()), (-5, 5));
/// ```
pub struct Batch<'a> {
    registry: &'a Registry,
    list: List,
    moves: Vec<Move>,
    first: Option<(usize, Named)>,
    fault: Option<Error>,
}

impl Registry {
    /// Publishes several changes as one version: each scrape shows all of them, or none. They are
    /// of metrics of one board, so let those be in one [group](crate::Opts::group). What panics
    /// within publishes nothing.
    ///
    /// ```
    /// use dirgwako::*;
    /// let registry = Registry::new();
    /// let sold = register_int_counter_with_registry!("sold_total", "Sold.", registry).unwrap();
    /// let stock = register_int_gauge_with_registry!("stock", "In stock.", registry).unwrap();
    /// stock.set(10);
    /// registry.publish(|batch| {
    ///     batch.inc(&sold);
    ///     batch.sub(&stock, 1);
    /// }).unwrap();
    /// assert_eq!((sold.get(), stock.get()), (1, 9));
    /// ```
    ///
    /// # Errors
    ///
    /// 47: the changes are of two boards, and the error says of which metrics. 33: there are more
    /// than the library has counters, histograms and twice its gauges. 16: a metric is of another
    /// registry. [`Error::NotRegistered`]: one is of none. 22: one is a handle that counts for
    /// nobody. 12: a number would pass 2^48 - 1. Nothing has changed then.
    pub fn publish<T>(&self, changes: impl FnOnce(&mut Batch<'_>) -> T) -> Result<T> {
        let mut batch = Batch {
            registry: self,
            list: List::new(),
            moves: Vec::new(),
            first: None,
            fault: None,
        };
        let made = changes(&mut batch);
        batch.publish()?;
        Ok(made)
    }
}

impl Batch<'_> {
    /// Adds 1 to a counter.
    pub fn inc(&mut self, counter: &IntCounter) {
        self.inc_by(counter, 1);
    }

    /// Adds to a counter.
    pub fn inc_by(&mut self, counter: &IntCounter, by: u64) {
        let bound = counter.bound();
        if self.takes(bound, || Named::Counter(counter.clone())) {
            if let Some(Bound { id, .. }) = bound {
                self.list.push(Change { board: id.board, kind: INC, slot: id.slot, by, value: 0 });
            }
        }
    }

    /// Counts a value.
    pub fn observe(&mut self, histogram: &Histogram, value: u64) {
        let bound = histogram.bound();
        if self.takes(bound, || Named::Histogram(histogram.clone())) {
            if let Some(Bound { id, .. }) = bound {
                self.list.push(id.observed(value));
            }
        }
    }

    /// Counts a duration, as [`Histogram::observe_for`].
    pub fn observe_for(&mut self, histogram: &Histogram, duration: Duration) {
        self.observe(histogram, histogram.units(duration));
    }

    /// Adds to a gauge.
    pub fn add(&mut self, gauge: &IntGauge, by: i64) {
        self.move_gauge(gauge, false, by);
    }

    /// Takes away from a gauge.
    pub fn sub(&mut self, gauge: &IntGauge, by: i64) {
        self.move_gauge(gauge, false, by.wrapping_neg());
    }

    /// Sets a gauge.
    pub fn set(&mut self, gauge: &IntGauge, to: i64) {
        self.move_gauge(gauge, true, to);
    }

    fn move_gauge(&mut self, gauge: &IntGauge, is_set: bool, by: i64) {
        if !self.takes(gauge.bound(), || Named::Gauge(gauge.clone())) {
            return;
        }
        match self.moves.iter_mut().find(|it| it.gauge.place() == gauge.place()) {
            Some(it) if is_set => (it.is_set, it.by) = (true, by),
            Some(it) => it.by = it.by.wrapping_add(by),
            None => self.moves.push(Move { gauge: gauge.clone(), is_set, by }),
        }
    }

    /// Whether a metric is of the version's registry and board.
    fn takes<I>(&mut self, bound: Option<&Bound<I>>, named: impl Fn() -> Named) -> bool {
        let name = || named().name();
        let fault = match (bound, &self.first) {
            (None, _) => Error::NotRegistered { name: name() },
            (Some(bound), _) if !Arc::ptr_eq(&bound.registry.0, &self.registry.0) => {
                Error::of(16, &name())
            }
            (Some(bound), _) if bound.board == NOBODY => Error::of(22, &name()),
            (Some(bound), Some((board, first))) if bound.board != *board => {
                Error::TwoBoards { name: name(), first: first.name() }
            }
            (Some(_), Some(_)) => return true,
            (Some(bound), None) => {
                self.first = Some((bound.board, named()));
                return true;
            }
        };
        self.fault.get_or_insert(fault);
        false
    }

    fn publish(mut self) -> Result<()> {
        if let Some(fault) = self.fault.take() {
            return Err(fault);
        }
        let Some((board, first)) = self.first.take() else {
            return Ok(());
        };
        let answer = if self.moves.is_empty() {
            self.publish_list(board)
        } else {
            self.publish_moves(board)
        };
        match (answer, self.list.len) {
            (0, _) => Ok(()),
            (number, 0 | 1) => Err(Error::of(number, &first.name())),
            (number, count) => Err(Error::of(
                number,
                &format!("a version of {count} changes, of which the first is of {}", first.name()),
            )),
        }
    }

    fn publish_list(&mut self, board: usize) -> u32 {
        self.registry.0.pool.publish(board, self.list.all())
    }

    /// Moves gauges as well. Those that are moved alone are held meanwhile, in one order for all
    /// threads.
    fn publish_moves(&mut self, board: usize) -> u32 {
        let mut moves = std::mem::take(&mut self.moves);
        moves.sort_unstable_by_key(|it| it.gauge.place());
        // From here on no memory is taken, for whoever moves a gauge where memory is taken.
        self.list.reserve(moves.len());
        let mut alone = Vec::with_capacity(moves.len());
        let mut steps = Vec::with_capacity(moves.len());
        for it in &moves {
            let is_alone = it.is_alone();
            if is_alone {
                alone.push(it.gauge.alone());
            }
            let step = if it.is_set { it.by.wrapping_sub(it.gauge.get()) } else { it.by };
            steps.push((is_alone, step));
            if !is_alone {
                it.gauge.shift(step);
            }
            self.push_step(it, step);
        }
        let answer = self.publish_list(board);
        for (it, (is_alone, step)) in moves.iter().zip(&steps) {
            match (answer == 0, is_alone) {
                (true, true) => it.gauge.shift(*step),
                (false, false) => it.gauge.shift(step.wrapping_neg()),
                _ => {}
            }
        }
        drop(alone);
        answer
    }

    fn push_step(&mut self, it: &Move, step: i64) {
        if let Some(Bound { id, .. }) = it.gauge.bound() {
            let kind = if step < 0 { DOWN } else { UP };
            if step != 0 {
                self.list.push(Change {
                    board: id.board,
                    kind,
                    slot: id.slot,
                    by: step.unsigned_abs(),
                    value: 0,
                });
            }
        }
    }
}
