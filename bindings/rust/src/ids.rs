//! The three kinds of handles by one trait: how their families and they themselves are made.

use crate::sys::{CounterId, Family, FamilyId, GaugeId, HistogramId, Page, BOUNDS};

/// A handle of a metric on a board.
pub(crate) trait Id: Sized {
    fn family(page: &mut Page, family: &Family<'_>) -> Result<FamilyId, u32>;
    fn of(page: &mut Page, family: &FamilyId, values: &[&str]) -> Result<Self, u32>;
    /// The id of its board.
    fn board(&self) -> u64;
    /// A handle of no board, which each count refuses.
    fn nobody() -> Self;
}

impl Id for CounterId {
    fn family(page: &mut Page, family: &Family<'_>) -> Result<FamilyId, u32> {
        page.counter_family(family)
    }
    fn of(page: &mut Page, family: &FamilyId, values: &[&str]) -> Result<CounterId, u32> {
        page.counter_of(family, values)
    }
    fn board(&self) -> u64 {
        self.board
    }
    fn nobody() -> CounterId {
        CounterId { board: 0, slot: usize::MAX }
    }
}

impl Id for GaugeId {
    fn family(page: &mut Page, family: &Family<'_>) -> Result<FamilyId, u32> {
        page.gauge_family(family)
    }
    fn of(page: &mut Page, family: &FamilyId, values: &[&str]) -> Result<GaugeId, u32> {
        page.gauge_of(family, values)
    }
    fn board(&self) -> u64 {
        self.board
    }
    fn nobody() -> GaugeId {
        GaugeId { board: 0, slot: usize::MAX }
    }
}

impl Id for HistogramId {
    fn family(page: &mut Page, family: &Family<'_>) -> Result<FamilyId, u32> {
        page.histogram_family(family)
    }
    fn of(page: &mut Page, family: &FamilyId, values: &[&str]) -> Result<HistogramId, u32> {
        page.histogram_of(family, values)
    }
    fn board(&self) -> u64 {
        self.board
    }
    fn nobody() -> HistogramId {
        HistogramId { board: 0, slot: usize::MAX, bounds: [0; BOUNDS], count: 0 }
    }
}
