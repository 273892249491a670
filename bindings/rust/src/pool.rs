//! Who counts with which recorder.
//!
//! A registry has a recorder for each of N workers, and threads come and go as they like. All
//! recorders but one are *stripes*: nobody owns one, a thread tries the one that it had last and
//! then the others. Where all are busy at this instant it waits for the last one, which is behind a
//! mutex.
//!
//! Or each stripe has a tally beside its recorder (`tallied`). A scrape takes all stripes and the
//! mutex, publishes what waits, scrapes, and lets go: while it has them nobody is within a count,
//! so that what it sees is one moment.

use crate::sys::{Abi, Change, CounterId, GaugeId, Held, HistogramId, Page, Recorder, Stripe};
use crate::tally::{BoardTally, Tally};
use std::cell::Cell;
use std::sync::atomic::{AtomicU64, AtomicUsize, Ordering::Relaxed};
use std::sync::{Mutex, MutexGuard};

enum Stripes {
    Plain(Box<[Stripe<Recorder>]>),
    Tallied(Box<[Stripe<Tally>]>),
}

pub(crate) struct Pool {
    pub abi: Abi,
    stripes: Stripes,
    shared: Mutex<Recorder>,
    refused: AtomicU64,
}

thread_local! {
    // Without a destructor: it is there also while the thread's other values are dropped.
    static LAST: Cell<usize> = const { Cell::new(usize::MAX) };
}

/// Where the next new thread begins to look.
static NEXT: AtomicUsize = AtomicUsize::new(0);

/// A lock whose content is whole, also where its last thread has panicked: nothing here panics
/// between two steps.
pub(crate) fn lock<T>(mutex: &Mutex<T>) -> MutexGuard<'_, T> {
    mutex.lock().unwrap_or_else(|poisoned| poisoned.into_inner())
}

/// All tallies, published, and nobody's meanwhile. Empty where there are none.
pub(crate) struct Settled<'a> {
    held: Vec<Held<'a, Tally>>,
    shared: Option<MutexGuard<'a, Recorder>>,
}

impl<'a> Settled<'a> {
    /// Lets all count again. The memory is handed back, to be given back behind this.
    pub fn release(mut self) -> Vec<Held<'a, Tally>> {
        self.held.clear();
        self.shared = None;
        self.held
    }
}

impl Pool {
    /// Of all recorders of a page that is new.
    pub fn new(page: &mut Page, abi: &Abi, tallied: bool) -> Result<Pool, u32> {
        let shared = page.recorder()?;
        let mut recorders = Vec::new();
        for _ in 1..abi.workers {
            recorders.push(page.recorder()?);
        }
        let stripes = if tallied {
            Stripes::Tallied(recorders.into_iter().map(|it| Stripe::new(Tally::new(it))).collect())
        } else {
            Stripes::Plain(recorders.into_iter().map(Stripe::new).collect())
        };
        Ok(Pool { abi: *abi, stripes, shared: Mutex::new(shared), refused: AtomicU64::new(0) })
    }

    /// Each tally, which has so many boards, has a further one from now on.
    pub fn grow(&self, boards: usize) {
        let Stripes::Tallied(stripes) = &self.stripes else {
            return;
        };
        for stripe in stripes.iter() {
            // While the tally is held nothing takes or gives memory back: an allocator that counts
            // would wait for its own thread.
            let (room, further) = (Vec::with_capacity(boards + 1), BoardTally::new(&self.abi));
            let before = stripe.lock().grow(room, further);
            drop(before);
        }
    }

    #[inline]
    pub fn inc(&self, board: usize, counter: &CounterId, by: u64) -> u32 {
        self.count(|tally| tally.inc(board, counter, by), |recorder| recorder.inc(counter, by))
    }

    #[inline]
    pub fn step(&self, board: usize, gauge: &GaugeId, by: i64) -> u32 {
        let far = by.unsigned_abs();
        if by < 0 {
            self.count(|tally| tally.down(board, gauge, far), |recorder| recorder.down(gauge, far))
        } else {
            self.count(|tally| tally.up(board, gauge, far), |recorder| recorder.up(gauge, far))
        }
    }

    #[inline]
    pub fn observe(&self, board: usize, histogram: &HistogramId, value: u64) -> u32 {
        self.count(
            |tally| tally.observe(board, histogram, value),
            |recorder| recorder.observe(histogram, value),
        )
    }

    /// Changes of one board as one version. Who asks hears what is refused, so it is not counted.
    #[inline]
    pub fn publish(&self, board: usize, changes: &[Change]) -> u32 {
        self.lend_either(
            |tally| tally.publish(board, changes),
            |recorder| recorder.publish(changes),
        )
    }

    /// Counts by the shared recorder, and tells no refusal.
    pub fn inc_shared(&self, counter: &CounterId, by: u64) -> u32 {
        lock(&self.shared).inc(counter, by)
    }

    pub fn refused(&self) -> u64 {
        self.refused.load(Relaxed)
    }

    #[cold]
    pub fn refuse(&self, calls: u64) {
        self.refused.fetch_add(calls, Relaxed);
    }

    #[inline]
    fn count(
        &self,
        tally: impl Fn(&mut Tally) -> u32,
        recorder: impl Fn(&mut Recorder) -> u32,
    ) -> u32 {
        let answer = self.lend_either(tally, recorder);
        if answer != 0 {
            self.refuse(1);
        }
        answer
    }

    #[inline]
    fn lend_either(
        &self,
        tally: impl Fn(&mut Tally) -> u32,
        recorder: impl Fn(&mut Recorder) -> u32,
    ) -> u32 {
        match &self.stripes {
            Stripes::Plain(stripes) => self.lend(stripes, &recorder, &recorder),
            Stripes::Tallied(stripes) => self.lend(stripes, &tally, &recorder),
        }
    }

    #[inline]
    fn lend<T>(
        &self,
        stripes: &[Stripe<T>],
        own: &impl Fn(&mut T) -> u32,
        shared: &impl Fn(&mut Recorder) -> u32,
    ) -> u32 {
        let last = LAST.get();
        if let Some(mut held) = stripes.get(last).and_then(Stripe::try_lock) {
            return own(&mut held);
        }
        self.lend_another(stripes, last, own, shared)
    }

    #[cold]
    #[inline(never)]
    fn lend_another<T>(
        &self,
        stripes: &[Stripe<T>],
        last: usize,
        own: &impl Fn(&mut T) -> u32,
        shared: &impl Fn(&mut Recorder) -> u32,
    ) -> u32 {
        let from = if last == usize::MAX { NEXT.fetch_add(1, Relaxed) } else { last };
        for step in 0..stripes.len() {
            let at = from.wrapping_add(step) % stripes.len();
            if let Some(mut held) = stripes[at].try_lock() {
                LAST.set(at);
                return own(&mut held);
            }
        }
        shared(&mut lock(&self.shared))
    }

    /// Memory for what `settle` holds.
    pub fn room(&self) -> Vec<Held<'_, Tally>> {
        match &self.stripes {
            Stripes::Plain(_) => Vec::new(),
            Stripes::Tallied(stripes) => Vec::with_capacity(stripes.len()),
        }
    }

    /// What a scrape does first. It keeps the answer until it has scraped. Takes no memory.
    pub fn settle<'a>(&'a self, mut held: Vec<Held<'a, Tally>>) -> Settled<'a> {
        let Stripes::Tallied(stripes) = &self.stripes else {
            return Settled { held, shared: None };
        };
        held.extend(stripes.iter().map(Stripe::lock));
        let shared = Some(lock(&self.shared));
        for tally in &mut held {
            let refused = tally.flush();
            if refused > 0 {
                self.refuse(refused);
            }
        }
        Settled { held, shared }
    }
}

#[cfg(test)]
mod tests {
    use super::*;
    use crate::{IntCounter, Registry};
    use std::sync::atomic::{AtomicBool, Ordering::SeqCst};
    use std::time::{Duration, Instant};

    /// While a scrape has the tallies, nobody counts, by whichever recorder; and what was counted
    /// before is published. Scrapes that took one tally after the other would let it through.
    #[test]
    fn nobody_counts_meanwhile() {
        let registry = Registry::builder().tallied().build().unwrap();
        let a = IntCounter::new("a_total", "A.").unwrap();
        registry.register(Box::new(a.clone())).unwrap();
        let done = AtomicBool::new(false);
        std::thread::scope(|scope| {
            a.inc();
            let pool = &registry.0.pool;
            let settled = pool.settle(pool.room());
            let later = scope.spawn(|| {
                a.inc();
                done.store(true, SeqCst);
            });
            let start = Instant::now();
            while start.elapsed() < Duration::from_millis(200) {
                std::thread::sleep(Duration::from_millis(10));
                assert!(!done.load(SeqCst), "it counted while the tallies were held");
            }
            drop(settled.release());
            later.join().unwrap();
        });
        assert_eq!(a.get(), 2);
    }

    /// Where all stripes are taken, a thread counts by the shared recorder, and nothing is lost.
    #[test]
    fn all_stripes_are_taken() {
        let registry = Registry::new();
        let a = IntCounter::new("a_total", "A.").unwrap();
        registry.register(Box::new(a.clone())).unwrap();
        let Stripes::Plain(stripes) = &registry.0.pool.stripes else { unreachable!() };
        let held: Vec<_> = stripes.iter().map(Stripe::lock).collect();
        let count = || (0..100).for_each(|_| a.inc());
        std::thread::scope(|scope| (0..4).for_each(|_| drop(scope.spawn(count))));
        drop(held);
        a.inc();
        assert_eq!((a.get(), registry.refused()), (401, 0));
    }
}
