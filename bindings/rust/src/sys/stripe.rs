//! A lock of one flag, for what a thread tries to have and does not wait for.

use std::cell::UnsafeCell;
use std::marker::PhantomData;
use std::ops::{Deref, DerefMut};
use std::sync::atomic::{AtomicBool, Ordering};

/// What one thread at a time has. Its own two cache lines: neighbours do not slow each other.
#[repr(align(128))]
pub(crate) struct Stripe<T> {
    busy: AtomicBool,
    held: UnsafeCell<T>,
}

// SAFETY: `busy` lets one thread at a time reach what is held, and hands over all that it did: it
// is taken by Acquire and given by Release. So `T` only has to be sent.
unsafe impl<T: Send> Sync for Stripe<T> {}

// A thread that panics lets go of what it has, and what is held is whole then: nothing here panics
// between two steps.
impl<T> std::panic::UnwindSafe for Stripe<T> {}
impl<T> std::panic::RefUnwindSafe for Stripe<T> {}

/// The right to a stripe's content. The pointer in it keeps it on its thread and unshared, since
/// `T` may not be `Sync`.
pub(crate) struct Held<'a, T> {
    stripe: &'a Stripe<T>,
    stays: PhantomData<*mut T>,
}

impl<T> Stripe<T> {
    pub fn new(held: T) -> Stripe<T> {
        Stripe { busy: AtomicBool::new(false), held: UnsafeCell::new(held) }
    }

    /// None where another thread has it.
    #[inline]
    pub fn try_lock(&self) -> Option<Held<'_, T>> {
        let was_free = !self.busy.load(Ordering::Relaxed)
            && self
                .busy
                .compare_exchange(false, true, Ordering::Acquire, Ordering::Relaxed)
                .is_ok();
        was_free.then(|| Held { stripe: self, stays: PhantomData })
    }

    /// Waits until it is free.
    pub fn lock(&self) -> Held<'_, T> {
        let mut tries = 0u32;
        loop {
            if let Some(held) = self.try_lock() {
                return held;
            }
            if tries < 100 {
                std::hint::spin_loop();
            } else {
                std::thread::yield_now();
            }
            tries += 1;
        }
    }
}

impl<T> Deref for Held<'_, T> {
    type Target = T;

    #[inline]
    fn deref(&self) -> &T {
        // SAFETY: `busy` was set for this value alone, and stays so until it is dropped: nobody
        // else reaches the content.
        unsafe { &*self.stripe.held.get() }
    }
}

impl<T> DerefMut for Held<'_, T> {
    #[inline]
    fn deref_mut(&mut self) -> &mut T {
        // SAFETY: as above, and `&mut self` is the only use of this right.
        unsafe { &mut *self.stripe.held.get() }
    }
}

impl<T> Drop for Held<'_, T> {
    #[inline]
    fn drop(&mut self) {
        self.stripe.busy.store(false, Ordering::Release);
    }
}

#[cfg(test)]
mod tests {
    use super::*;

    /// Six threads that try three stripes, and now and then take all: a lock that let two in would
    /// lose some.
    #[test]
    fn nothing_is_lost() {
        let all: Vec<_> = (0..3).map(|_| Stripe::new([0u64; 2])).collect();
        let (threads, turns) = (6usize, 20_000usize);
        std::thread::scope(|scope| {
            for own in 0..threads {
                let all = &all;
                scope.spawn(move || {
                    for turn in 0..turns {
                        if turn % 64 == 0 {
                            for mut held in [all[0].lock(), all[1].lock(), all[2].lock()] {
                                held[1] += 1;
                            }
                        } else {
                            let mut held = (own..).find_map(|at| all[at % 3].try_lock()).unwrap();
                            held[0] += 1;
                        }
                    }
                });
            }
        });
        let (mut single, mut whole) = (0, 0);
        for it in &all {
            single += it.lock()[0];
            whole += it.lock()[1];
        }
        let of_all = threads as u64 * turns.div_ceil(64) as u64;
        assert_eq!((single, whole), ((threads * turns) as u64 - of_all, 3 * of_all));
    }

    /// Who has it has it alone, until the right is dropped.
    #[test]
    fn it_is_one_threads() {
        let stripe = Stripe::new(1);
        let held = stripe.try_lock().unwrap();
        assert!(stripe.try_lock().is_none());
        drop(held);
        assert!(stripe.try_lock().is_some());
    }
}
