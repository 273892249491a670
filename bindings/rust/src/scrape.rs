//! Scrapes: texts, replies and single numbers, each of one moment of its board.

use crate::error::{Error, Result};
use crate::opts::Opts;
use crate::pool::{lock, Pool};
use crate::registry::{Family, Inner, Registry, State};
use crate::sys::{CounterId, Page};

/// How often a scan that was given up (14) is asked for once more.
const TRIES: u32 = 1000;

/// The series of refusals: nothing before the first.
#[derive(Default)]
pub(crate) struct Refusals {
    family: Option<Family>,
    counter: Option<CounterId>,
    shown: u64,
    /// It finds no place.
    is_without: bool,
}

/// What [`Registry::gather`] took: the text of one scrape, or why there is none. It is where
/// `prometheus` has a list of families.
///
/// ```
/// let registry = dirgwako::Registry::new();
/// dirgwako::register_int_gauge_with_registry!("open", "Open.", registry).unwrap().set(3);
/// assert!(registry.gather().text().unwrap().ends_with("\nopen 3\n"));
/// ```
#[derive(Debug)]
pub struct Gathered(pub(crate) Result<String>);

impl Gathered {
    /// The text.
    ///
    /// # Errors
    ///
    /// Why there is none, as [`Registry::gather_text`].
    pub fn text(&self) -> std::result::Result<&str, &Error> {
        self.0.as_deref()
    }
}

/// Calls the library while all tallies are published and held.
fn settled<T>(pool: &Pool, call: impl FnOnce() -> T) -> T {
    let room = pool.room();
    // From here to `release` nothing takes memory or gives it back: an allocator that counts would
    // wait for its own thread.
    let held = pool.settle(room);
    let made = call();
    let room = held.release();
    drop(room);
    made
}

/// Before a scan is asked for once more.
fn pause(turn: u32) {
    if turn < 16 {
        std::hint::spin_loop();
    } else {
        std::thread::yield_now();
    }
}

impl State {
    /// A text at the front of the buffer, and its length.
    fn text(
        &mut self,
        pool: &Pool,
        call: impl Fn(&mut Page, &mut [u8]) -> (u32, usize),
    ) -> std::result::Result<usize, u32> {
        for turn in 0..TRIES {
            let (page, buffer) = (&mut self.page, &mut self.buffer);
            match settled(pool, || call(page, buffer)) {
                (0, len) => return Ok(len),
                (37, len) => self.buffer.resize(len + len / 8, 0),
                (14, _) => pause(turn),
                (number, _) => return Err(number),
            }
        }
        Err(14)
    }

    /// The numbers of a board at the front of the array, and how many they are.
    fn read(&mut self, pool: &Pool, board: usize) -> std::result::Result<usize, u32> {
        for turn in 0..TRIES {
            let (page, numbers) = (&mut self.page, &mut self.numbers);
            match settled(pool, || page.read(board, numbers)) {
                (0, len) => return Ok(len),
                (37, len) => self.numbers.resize(len, 0),
                (14, _) => pause(turn),
                (number, _) => return Err(number),
            }
        }
        Err(14)
    }

    /// Lets the next scrape show how many calls were refused, once there are some.
    fn show_refused(&mut self, registry: &Registry) {
        let refused = registry.refused();
        if refused == self.refusals.shown || self.refusals.is_without {
            return;
        }
        if self.refusals.counter.is_none() {
            match self.refusals_counter(registry) {
                Ok(counter) => self.refusals.counter = Some(counter),
                // Memory may come back. A slot, a family or the name never does.
                Err(error) => self.refusals.is_without = error.number() != Some(6),
            }
        }
        if let Some(counter) = &self.refusals.counter {
            if registry.0.pool.inc_shared(counter, refused - self.refusals.shown) == 0 {
                self.refusals.shown = refused;
            }
        }
    }

    fn refusals_counter(&mut self, registry: &Registry) -> Result<CounterId> {
        let opts = Opts::new(
            "dirgwako_refused_total",
            "Calls that were refused: no scrape shows what they counted.",
        );
        if self.refusals.family.is_none() {
            self.refusals.family =
                Some(registry.family_of::<CounterId>(self, &opts, &[], &[], 0)?);
        }
        let family = self.refusals.family.clone();
        match family {
            Some(family) => Ok(registry.child_of(self, &opts.name, &family, &[])?.0),
            None => Err(Error::of(20, &opts.name)),
        }
    }
}

impl Inner {
    /// What `look` finds among the numbers of a board, read now; none where the board is none, or
    /// there is no memory for a scan.
    pub fn numbers<T>(
        &self,
        board: usize,
        look: impl FnOnce(&[u64]) -> std::result::Result<T, u32>,
    ) -> Option<T> {
        loop {
            let mut state = lock(&self.state);
            match state.read(&self.pool, board) {
                Ok(len) => return look(state.numbers.get(..len)?).ok(),
                // Threads that publish without rest: there is a number all the same.
                Err(14) => continue,
                Err(_) => return None,
            }
        }
    }
}

impl Registry {
    /// The text of a scrape that is taken now, in the text exposition format 0.0.4: all series of a
    /// board at one moment.
    ///
    /// # Errors
    ///
    /// 14: scans were given up, a thousand times, since threads published without rest. 6: out of
    /// memory.
    pub fn gather_text(&self) -> Result<String> {
        let mut state = lock(&self.0.state);
        state.show_refused(self);
        let len = state
            .text(&self.0.pool, Page::scrape)
            .map_err(|number| Error::of(number, "a scrape"))?;
        Ok(String::from_utf8_lossy(&state.buffer[..len]).into_owned())
    }

    /// A scrape that is taken now, for an [`Encoder`](crate::Encoder).
    ///
    /// ```
    /// use dirgwako::{Encoder, Registry, TextEncoder};
    /// let registry = Registry::new();
    /// let mut text = Vec::new();
    /// TextEncoder::new().encode(&registry.gather(), &mut text).unwrap();
    /// ```
    pub fn gather(&self) -> Gathered {
        Gathered(self.gather_text())
    }

    /// The reply to a request of HTTP/1.1 that was read up to its empty line, head and body: 200
    /// with the text of a scrape for `GET /metrics`, else 400, 404, 405 or 431, and 503 where there
    /// is no scrape. To no byte there is no reply.
    ///
    /// ```
    /// let registry = dirgwako::Registry::new();
    /// let reply = registry.reply(b"GET /metrics HTTP/1.1\r\nHost: shop\r\n\r\n");
    /// assert!(reply.starts_with(b"HTTP/1.1 200 OK\r\n"));
    /// ```
    pub fn reply(&self, request: &[u8]) -> Vec<u8> {
        let mut state = lock(&self.0.state);
        state.show_refused(self);
        let mut turn = 0;
        loop {
            match state.text(&self.0.pool, |page, buffer| page.reply(request, buffer)) {
                Ok(_) if turn < 16 && state.buffer.starts_with(b"HTTP/1.1 503") => pause(turn),
                Ok(len) => return state.buffer[..len].to_vec(),
                Err(26) => return Vec::new(),
                Err(_) => return NO_REPLY.to_vec(),
            }
            turn += 1;
        }
    }
}

/// The reply where the library has no memory for its own.
const NO_REPLY: &[u8] =
    b"HTTP/1.1 503 Service Unavailable\r\nContent-Length: 0\r\nConnection: close\r\n\r\n";
