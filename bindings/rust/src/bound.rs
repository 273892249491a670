//! A metric, on a board or not yet.

use crate::error::{Error, Result};
use crate::opts::Opts;
use crate::pool::{lock, Pool};
use crate::registry::Registry;
use std::sync::atomic::{AtomicBool, Ordering::Relaxed};
use std::sync::{Mutex, OnceLock};

/// Where a metric is.
pub(crate) struct Bound<I> {
    pub id: I,
    /// The number of the board.
    pub board: usize,
    pub registry: Registry,
}

impl<I> Bound<I> {
    #[inline]
    pub fn pool(&self) -> &Pool {
        &self.registry.0.pool
    }
}

/// The board's number in a handle that counts for nobody: no board has it.
pub(crate) const NOBODY: usize = usize::MAX;

/// A metric whose handle is `I`, and which keeps `P` of what it counts before it is registered.
pub(crate) struct Core<I, P> {
    pub opts: Opts,
    bound: OnceLock<Bound<I>>,
    pending: Mutex<P>,
    claimed: AtomicBool,
}

impl<I, P: Default> Core<I, P> {
    pub fn new(opts: Opts) -> Core<I, P> {
        Core {
            opts,
            bound: OnceLock::new(),
            pending: Mutex::new(P::default()),
            claimed: AtomicBool::new(false),
        }
    }

    #[inline]
    pub fn bound(&self) -> Option<&Bound<I>> {
        self.bound.get()
    }

    pub fn name(&self) -> String {
        self.opts.fq_name()
    }

    /// The right to bind it, which is given once.
    ///
    /// # Errors
    ///
    /// 19: it is registered, or is just being so.
    pub fn claim(&self) -> Result<()> {
        if self.claimed.swap(true, Relaxed) {
            return Err(Error::AlreadyReg { name: self.name() });
        }
        Ok(())
    }

    /// Gives the right back: it was not bound.
    pub fn unclaim(&self) {
        self.claimed.store(false, Relaxed);
    }

    /// It is on a board from now on. What was counted before is published first. Who claimed it
    /// calls this, once.
    pub fn bind(&self, bound: Bound<I>, publish: impl FnOnce(&Bound<I>, &mut P)) {
        let mut pending = lock(&self.pending);
        publish(&bound, &mut pending);
        // Nobody else has claimed it.
        let _ = self.bound.set(bound);
    }

    /// Counts it here, unless it is on a board by now: whether it did.
    #[cold]
    pub fn pend(&self, count: impl FnOnce(&mut P)) -> bool {
        let mut pending = lock(&self.pending);
        let is_free = self.bound.get().is_none();
        if is_free {
            count(&mut pending);
        }
        is_free
    }

    /// What it counted here.
    pub fn pending<T>(&self, look: impl FnOnce(&P) -> T) -> T {
        look(&lock(&self.pending))
    }
}
