//! The library's own functions, and all that is `unsafe` in this crate.
//!
//! What `dirgwako.h` asks of a caller is kept here: no pointer is null or dangles, a handle is used
//! by one call at a time (`&mut self`), is never copied, and begins as zeros; what a call writes to
//! is nobody else's.
#![allow(unsafe_code)]

mod abi;
mod library;
mod stripe;

pub(crate) use abi::{
    abi, Abi, Change, CounterId, FamilyId, GaugeId, HistogramId, Totals, BOUNDS, DOWN, INC, LABELS,
    LARGEST, OBSERVE, UP,
};
pub(crate) use stripe::{Held, Stripe};

use library::*;
use std::ptr;

/// A slice's pointer, which points to something also where the slice is empty, as the one of Rust's
/// empty slices does not.
fn at<'a, T>(slice: &'a [T], spare: &'a T) -> *const T {
    if slice.is_empty() {
        spare
    } else {
        slice.as_ptr()
    }
}

/// The same of a slice that is written to.
fn at_mut<'a, T>(slice: &'a mut [T], spare: &'a mut T) -> *mut T {
    if slice.is_empty() {
        spare
    } else {
        slice.as_mut_ptr()
    }
}

fn answer(number: u32) -> Result<(), u32> {
    if number == 0 {
        Ok(())
    } else {
        Err(number)
    }
}

const NO_TEXT: Text = Text { at: &0u8, len: 0 };

/// Texts by their bytes, at most as many as a family has labels.
fn texts(of: &[&str], number: u32) -> Result<[Text; LABELS], u32> {
    let mut made = [NO_TEXT; LABELS];
    if of.len() > LABELS {
        return Err(number);
    }
    for (place, text) in made.iter_mut().zip(of) {
        *place = Text { at: at(text.as_bytes(), &0), len: text.len() };
    }
    Ok(made)
}

fn ask_abi() -> Abi {
    /// Room behind it, for what a later version of the library may tell besides.
    #[repr(C)]
    #[derive(Default)]
    struct Roomy {
        abi: Abi,
        further: [usize; 32],
    }
    let mut told = Roomy::default();
    // SAFETY: the struct is this call's alone, and there is room behind it.
    unsafe { dirgwako_c_abi(ptr::addr_of_mut!(told).cast()) };
    told.abi
}

/// What a refusal says, in a few words.
pub(crate) fn refusal(number: u32) -> String {
    let (mut words, mut len) = ([0u8; 128], 0);
    // SAFETY: the buffer and the length are this call's alone.
    let told =
        unsafe { dirgwako_c_refusal(number as usize, words.as_mut_ptr(), words.len(), &mut len) };
    if told != 0 {
        return "a refusal without words".into();
    }
    String::from_utf8_lossy(&words[..len.min(words.len())]).into_owned()
}

/// Whether this is a metric's name.
pub(crate) fn is_name(name: &str) -> Result<(), u32> {
    // SAFETY: a pointer to the bytes of a text, and how many there are.
    answer(unsafe { dirgwako_c_is_name(at(name.as_bytes(), &0), name.len()) })
}

/// What a family is registered by.
pub(crate) struct Family<'a> {
    pub name: &'a str,
    pub help: &'a str,
    pub labels: &'a [&'a str],
    pub bounds: &'a [u64],
    pub digits: usize,
    pub group: usize,
}

/// A registry's handle: a page of boards.
pub(crate) struct Page(Handle);

// SAFETY: what is behind the handle may go to another thread: the library proves it
// (`registry_sent`).
unsafe impl Send for Page {}

impl Drop for Page {
    fn drop(&mut self) {
        // SAFETY: the handle is this value's alone, and is not used after it.
        unsafe { dirgwako_c_registry_free(&mut self.0) };
    }
}

impl Page {
    pub fn new(window: usize) -> Result<Page, u32> {
        let mut handle = Handle::EMPTY;
        // SAFETY: an empty handle, which the call fills; the id is one that no other registry of
        // the process has.
        answer(unsafe { dirgwako_c_registry_new(&mut handle, dirgwako_next_id(), window) })?;
        Ok(Page(handle))
    }

    pub fn recorder(&mut self) -> Result<Recorder, u32> {
        let mut handle = Handle::EMPTY;
        // SAFETY: the registry's only use, and an empty handle.
        answer(unsafe { dirgwako_c_recorder_take(&mut self.0, &mut handle) })?;
        Ok(Recorder(handle))
    }

    pub fn counter_family(&mut self, it: &Family<'_>) -> Result<FamilyId, u32> {
        let (labels, mut made) = (texts(it.labels, 9)?, FamilyId { registry: 0, number: 0 });
        // SAFETY: the registry's only use; texts and lists by pointers to what they hold, and how
        // many that is, which live on behind the call.
        answer(unsafe {
            dirgwako_c_counter_family_new(
                &mut self.0,
                at(it.name.as_bytes(), &0),
                it.name.len(),
                at(it.help.as_bytes(), &0),
                it.help.len(),
                labels.as_ptr(),
                it.labels.len(),
                it.digits,
                it.group,
                &mut made,
            )
        })?;
        Ok(made)
    }

    pub fn gauge_family(&mut self, it: &Family<'_>) -> Result<FamilyId, u32> {
        let (labels, mut made) = (texts(it.labels, 9)?, FamilyId { registry: 0, number: 0 });
        // SAFETY: as of a family of counters.
        answer(unsafe {
            dirgwako_c_gauge_family_new(
                &mut self.0,
                at(it.name.as_bytes(), &0),
                it.name.len(),
                at(it.help.as_bytes(), &0),
                it.help.len(),
                labels.as_ptr(),
                it.labels.len(),
                it.digits,
                it.group,
                &mut made,
            )
        })?;
        Ok(made)
    }

    pub fn histogram_family(&mut self, it: &Family<'_>) -> Result<FamilyId, u32> {
        let (labels, mut made) = (texts(it.labels, 9)?, FamilyId { registry: 0, number: 0 });
        // SAFETY: as of a family of counters; the bounds likewise.
        answer(unsafe {
            dirgwako_c_histogram_family_new(
                &mut self.0,
                at(it.name.as_bytes(), &0),
                it.name.len(),
                at(it.help.as_bytes(), &0),
                it.help.len(),
                labels.as_ptr(),
                it.labels.len(),
                at(it.bounds, &0),
                it.bounds.len(),
                it.digits,
                it.group,
                &mut made,
            )
        })?;
        Ok(made)
    }

    pub fn counter_of(&mut self, family: &FamilyId, values: &[&str]) -> Result<CounterId, u32> {
        let (texts, mut made) = (texts(values, 21)?, CounterId { board: 0, slot: 0 });
        // SAFETY: the registry's only use; the texts live on behind the call.
        answer(unsafe {
            dirgwako_c_counter_of(&mut self.0, family, texts.as_ptr(), values.len(), &mut made)
        })?;
        Ok(made)
    }

    pub fn gauge_of(&mut self, family: &FamilyId, values: &[&str]) -> Result<GaugeId, u32> {
        let (texts, mut made) = (texts(values, 21)?, GaugeId { board: 0, slot: 0 });
        // SAFETY: as of a counter.
        answer(unsafe {
            dirgwako_c_gauge_of(&mut self.0, family, texts.as_ptr(), values.len(), &mut made)
        })?;
        Ok(made)
    }

    pub fn histogram_of(&mut self, family: &FamilyId, values: &[&str]) -> Result<HistogramId, u32> {
        let texts = texts(values, 21)?;
        let mut made = HistogramId { board: 0, slot: 0, bounds: [0; BOUNDS], count: 0 };
        // SAFETY: as of a counter.
        answer(unsafe {
            dirgwako_c_histogram_of(&mut self.0, family, texts.as_ptr(), values.len(), &mut made)
        })?;
        Ok(made)
    }

    /// How many boards there are.
    pub fn boards(&mut self) -> Result<usize, u32> {
        let mut count = 0;
        // SAFETY: the registry's only use.
        answer(unsafe { dirgwako_c_boards(&mut self.0, &mut count) })?;
        Ok(count)
    }

    /// The number of the board of this id.
    pub fn board_of(&mut self, id: u64) -> Result<usize, u32> {
        let mut number = 0;
        // SAFETY: the registry's only use.
        answer(unsafe { dirgwako_c_board_of(&mut self.0, id, &mut number) })?;
        Ok(number)
    }

    /// The numbers of a scrape of this board that is made now, and how many they are. Takes no
    /// memory of Rust's allocator.
    pub fn read(&mut self, board: usize, numbers: &mut [u64]) -> (u32, usize) {
        let (room, mut len, mut spare) = (numbers.len(), 0, 0);
        // SAFETY: the registry's only use; the array is this call's alone.
        let answer = unsafe {
            dirgwako_c_read(&mut self.0, board, at_mut(numbers, &mut spare), room, &mut len)
        };
        (answer, len)
    }

    /// The text of a scrape that is made now, and its length: at 37 the length that it needs. Takes
    /// no memory of Rust's allocator.
    pub fn scrape(&mut self, buffer: &mut [u8]) -> (u32, usize) {
        let (room, mut len, mut spare) = (buffer.len(), 0, 0);
        // SAFETY: the registry's only use; the buffer is this call's alone.
        let answer =
            unsafe { dirgwako_c_scrape(&mut self.0, at_mut(buffer, &mut spare), room, &mut len) };
        (answer, len)
    }

    /// The reply to a request, likewise.
    pub fn reply(&mut self, request: &[u8], buffer: &mut [u8]) -> (u32, usize) {
        let (room, mut len, mut spare) = (buffer.len(), 0, 0);
        // SAFETY: as of a scrape; the request is another slice than the buffer.
        let answer = unsafe {
            dirgwako_c_reply(
                &mut self.0,
                at(request, &0),
                request.len(),
                at_mut(buffer, &mut spare),
                room,
                &mut len,
            )
        };
        (answer, len)
    }
}

/// The total of a counter among numbers that were read.
pub(crate) fn counter_total(numbers: &[u64], counter: &CounterId) -> Result<u64, u32> {
    let mut total = 0;
    // SAFETY: a list by its pointer and length.
    answer(unsafe {
        dirgwako_c_counter_total(at(numbers, &0), numbers.len(), counter, &mut total)
    })?;
    Ok(total)
}

/// The totals of a histogram among them.
pub(crate) fn histogram_totals(numbers: &[u64], histogram: &HistogramId) -> Result<Totals, u32> {
    let mut totals = Totals { buckets: [0; BOUNDS + 1], sum: 0, count: 0 };
    // SAFETY: as of a counter.
    answer(unsafe {
        dirgwako_c_histogram_totals(at(numbers, &0), numbers.len(), histogram, &mut totals)
    })?;
    Ok(totals)
}

impl HistogramId {
    /// That a value is counted.
    #[inline]
    pub fn observed(&self, value: u64) -> Change {
        // SAFETY: a handle that the library has written.
        let place = unsafe { dirgwako_c_place(self, value) };
        Change { board: self.board, kind: OBSERVE, slot: self.slot, by: place as u64, value }
    }
}

/// A recorder's handle: what one thread at a time counts with.
pub(crate) struct Recorder(Handle);

// SAFETY: what is behind the handle may go to another thread: the library proves it
// (`recorder_sent`).
unsafe impl Send for Recorder {}

impl Drop for Recorder {
    fn drop(&mut self) {
        // SAFETY: the handle is this value's alone, and is not used after it.
        unsafe { dirgwako_c_recorder_free(&mut self.0) };
    }
}

impl Recorder {
    #[inline]
    pub fn inc(&mut self, counter: &CounterId, by: u64) -> u32 {
        // SAFETY: the recorder's only use.
        unsafe { dirgwako_c_inc(&mut self.0, counter, by) }
    }

    #[inline]
    pub fn observe(&mut self, histogram: &HistogramId, value: u64) -> u32 {
        // SAFETY: the recorder's only use; a handle that the library has written.
        unsafe { dirgwako_c_observe(&mut self.0, histogram, value) }
    }

    #[inline]
    pub fn up(&mut self, gauge: &GaugeId, by: u64) -> u32 {
        // SAFETY: the recorder's only use.
        unsafe { dirgwako_c_up(&mut self.0, gauge, by) }
    }

    #[inline]
    pub fn down(&mut self, gauge: &GaugeId, by: u64) -> u32 {
        // SAFETY: the recorder's only use.
        unsafe { dirgwako_c_down(&mut self.0, gauge, by) }
    }

    /// These changes as one version.
    #[inline]
    pub fn publish(&mut self, changes: &[Change]) -> u32 {
        let none = Change { board: 0, kind: INC, slot: 0, by: 0, value: 0 };
        // SAFETY: the recorder's only use; a list by its pointer and length.
        unsafe { dirgwako_c_publish(&mut self.0, at(changes, &none), changes.len()) }
    }
}
