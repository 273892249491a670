//! What crosses between this crate and the library, laid out as in `dirgwako.h`, and whether the
//! library is of the same mind.

use std::mem::size_of;
use std::sync::OnceLock;

/// The version of the interface that this crate speaks.
const VERSION: usize = 1;
/// The most bounds of a histogram.
pub(crate) const BOUNDS: usize = 24;
/// The most labels of a family.
pub(crate) const LABELS: usize = 8;
/// The largest number that one recorder's word holds.
pub(crate) const LARGEST: u64 = (1 << 48) - 1;

/// A counter, on the board of this id.
#[repr(C)]
#[derive(Clone, Copy, Debug)]
pub(crate) struct CounterId {
    pub board: u64,
    pub slot: usize,
}

/// A gauge.
#[repr(C)]
#[derive(Clone, Copy, Debug)]
pub(crate) struct GaugeId {
    pub board: u64,
    pub slot: usize,
}

/// A histogram. The library alone writes its bounds.
#[repr(C)]
#[derive(Clone, Copy, Debug)]
pub(crate) struct HistogramId {
    pub board: u64,
    pub slot: usize,
    pub bounds: [u64; BOUNDS],
    pub count: usize,
}

/// A family of counters, gauges or histograms, which are laid out alike.
#[repr(C)]
#[derive(Clone, Copy, Debug)]
pub(crate) struct FamilyId {
    pub registry: u64,
    pub number: usize,
}

/// A change of a metric.
#[repr(C)]
#[derive(Clone, Copy, Debug)]
pub(crate) struct Change {
    pub board: u64,
    pub kind: u64,
    pub slot: usize,
    pub by: u64,
    pub value: u64,
}

/// A counter rises.
pub(crate) const INC: u64 = 0;
/// A value is counted.
pub(crate) const OBSERVE: u64 = 1;
/// A gauge rises.
pub(crate) const UP: u64 = 2;
/// A gauge falls.
pub(crate) const DOWN: u64 = 3;

/// The totals of a histogram.
#[repr(C)]
#[derive(Clone, Copy, Debug)]
pub(crate) struct Totals {
    pub buckets: [u64; BOUNDS + 1],
    pub sum: u64,
    pub count: u64,
}

/// What the library was built for.
#[repr(C)]
#[derive(Clone, Copy, Debug, Default)]
pub(crate) struct Abi {
    pub version: usize,
    pub workers: usize,
    pub counters: usize,
    pub histograms: usize,
    pub gauges: usize,
    pub numbers: usize,
    pub changes: usize,
    counter_bytes: usize,
    gauge_bytes: usize,
    histogram_bytes: usize,
    family_bytes: usize,
    change_bytes: usize,
    totals_bytes: usize,
}

impl Abi {
    /// Why this is no library of this crate.
    fn fault(&self) -> Option<String> {
        if self.version != VERSION {
            return Some(format!(
                "the library speaks version {} of its interface, this crate version {VERSION}: \
                 build both of one source",
                self.version
            ));
        }
        let sizes = [
            ("counter", self.counter_bytes, size_of::<CounterId>()),
            ("gauge", self.gauge_bytes, size_of::<GaugeId>()),
            ("histogram", self.histogram_bytes, size_of::<HistogramId>()),
            ("family", self.family_bytes, size_of::<FamilyId>()),
            ("change", self.change_bytes, size_of::<Change>()),
            ("histogram's totals", self.totals_bytes, size_of::<Totals>()),
        ];
        let other = sizes.into_iter().find(|(_, theirs, ours)| theirs != ours);
        other.map(|(what, theirs, ours)| {
            format!(
                "a {what} has {theirs} bytes in the library and {ours} in this crate: \
                 build both of one source"
            )
        })
    }
}

/// What the library was built for, if it is one of this crate. It is asked once.
pub(crate) fn abi() -> Result<&'static Abi, String> {
    static ASKED: OnceLock<Result<Abi, String>> = OnceLock::new();
    let asked = ASKED.get_or_init(|| {
        let told = super::ask_abi();
        match told.fault() {
            None => Ok(told),
            Some(fault) => Err(fault),
        }
    });
    asked.as_ref().map_err(String::clone)
}

#[cfg(test)]
mod tests {
    use super::*;

    fn ours() -> Abi {
        Abi {
            version: VERSION,
            counter_bytes: size_of::<CounterId>(),
            gauge_bytes: size_of::<GaugeId>(),
            histogram_bytes: size_of::<HistogramId>(),
            family_bytes: size_of::<FamilyId>(),
            change_bytes: size_of::<Change>(),
            totals_bytes: size_of::<Totals>(),
            ..Abi::default()
        }
    }

    /// A library of another version, or of another layout, is told apart, by what differs.
    #[test]
    fn another_library() {
        assert_eq!(ours().fault(), None);
        let newer = Abi { version: VERSION + 1, ..ours() };
        assert!(newer.fault().unwrap().contains("version 2"));
        let wider = Abi { change_bytes: 48, ..ours() };
        assert!(wider.fault().unwrap().contains("a change has 48 bytes"));
        let histogram = Abi { histogram_bytes: 8, ..ours() };
        assert!(histogram.fault().unwrap().contains("a histogram has 8 bytes"));
    }

    /// The library that this test is linked with is one of this crate.
    #[test]
    fn this_library() {
        let abi = abi().unwrap();
        assert_eq!(abi.changes, abi.counters + abi.histograms + 2 * abi.gauges);
        assert!(abi.workers >= 1 && abi.counters >= 1);
    }
}
