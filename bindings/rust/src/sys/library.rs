//! The library's own functions, as `dirgwako.h` declares them.

use super::{Abi, Change, CounterId, FamilyId, GaugeId, HistogramId, Totals};
use std::ptr;

/// The two words of a registry's or a recorder's handle.
#[repr(C)]
pub(super) struct Handle {
    pub at: *mut u8,
    pub live: u64,
}

impl Handle {
    pub const EMPTY: Handle = Handle { at: ptr::null_mut(), live: 0 };
}

/// The bytes of a text.
#[repr(C)]
#[derive(Clone, Copy)]
pub(super) struct Text {
    pub at: *const u8,
    pub len: usize,
}

extern "C" {
    pub fn dirgwako_next_id() -> u32;
    pub fn dirgwako_c_abi(abi: *mut Abi) -> u32;
    pub fn dirgwako_c_refusal(number: usize, buffer: *mut u8, room: usize, len: *mut usize) -> u32;
    pub fn dirgwako_c_is_name(name: *const u8, len: usize) -> u32;
    pub fn dirgwako_c_registry_new(registry: *mut Handle, id: u32, window: usize) -> u32;
    pub fn dirgwako_c_registry_free(registry: *mut Handle) -> u32;
    pub fn dirgwako_c_recorder_take(registry: *mut Handle, recorder: *mut Handle) -> u32;
    pub fn dirgwako_c_recorder_free(recorder: *mut Handle) -> u32;
    pub fn dirgwako_c_counter_family_new(
        registry: *mut Handle,
        name: *const u8,
        name_len: usize,
        help: *const u8,
        help_len: usize,
        labels: *const Text,
        count: usize,
        digits: usize,
        group: usize,
        family: *mut FamilyId,
    ) -> u32;
    pub fn dirgwako_c_gauge_family_new(
        registry: *mut Handle,
        name: *const u8,
        name_len: usize,
        help: *const u8,
        help_len: usize,
        labels: *const Text,
        count: usize,
        digits: usize,
        group: usize,
        family: *mut FamilyId,
    ) -> u32;
    pub fn dirgwako_c_histogram_family_new(
        registry: *mut Handle,
        name: *const u8,
        name_len: usize,
        help: *const u8,
        help_len: usize,
        labels: *const Text,
        count: usize,
        bounds: *const u64,
        bound_count: usize,
        digits: usize,
        group: usize,
        family: *mut FamilyId,
    ) -> u32;
    pub fn dirgwako_c_counter_of(
        registry: *mut Handle,
        family: *const FamilyId,
        values: *const Text,
        count: usize,
        counter: *mut CounterId,
    ) -> u32;
    pub fn dirgwako_c_gauge_of(
        registry: *mut Handle,
        family: *const FamilyId,
        values: *const Text,
        count: usize,
        gauge: *mut GaugeId,
    ) -> u32;
    pub fn dirgwako_c_histogram_of(
        registry: *mut Handle,
        family: *const FamilyId,
        values: *const Text,
        count: usize,
        histogram: *mut HistogramId,
    ) -> u32;
    pub fn dirgwako_c_inc(recorder: *mut Handle, counter: *const CounterId, by: u64) -> u32;
    pub fn dirgwako_c_observe(
        recorder: *mut Handle,
        histogram: *const HistogramId,
        value: u64,
    ) -> u32;
    pub fn dirgwako_c_up(recorder: *mut Handle, gauge: *const GaugeId, by: u64) -> u32;
    pub fn dirgwako_c_down(recorder: *mut Handle, gauge: *const GaugeId, by: u64) -> u32;
    pub fn dirgwako_c_publish(recorder: *mut Handle, changes: *const Change, count: usize) -> u32;
    pub fn dirgwako_c_place(histogram: *const HistogramId, value: u64) -> usize;
    pub fn dirgwako_c_boards(registry: *mut Handle, count: *mut usize) -> u32;
    pub fn dirgwako_c_board_of(registry: *mut Handle, id: u64, number: *mut usize) -> u32;
    pub fn dirgwako_c_read(
        registry: *mut Handle,
        board: usize,
        numbers: *mut u64,
        room: usize,
        len: *mut usize,
    ) -> u32;
    pub fn dirgwako_c_counter_total(
        numbers: *const u64,
        len: usize,
        counter: *const CounterId,
        total: *mut u64,
    ) -> u32;
    pub fn dirgwako_c_histogram_totals(
        numbers: *const u64,
        len: usize,
        histogram: *const HistogramId,
        totals: *mut Totals,
    ) -> u32;
    pub fn dirgwako_c_scrape(
        registry: *mut Handle,
        buffer: *mut u8,
        room: usize,
        len: *mut usize,
    ) -> u32;
    pub fn dirgwako_c_reply(
        registry: *mut Handle,
        request: *const u8,
        request_len: usize,
        buffer: *mut u8,
        room: usize,
        len: *mut usize,
    ) -> u32;
}
