//! What the tests share.
#![allow(dead_code)]

use dirgwako::*;

/// A registry of each way of lending.
pub fn both() -> [(&'static str, Registry); 2] {
    [("striped", Registry::new()), ("tallied", Registry::builder().tallied().build().unwrap())]
}

pub fn counter(registry: &Registry, name: &str) -> IntCounter {
    register_int_counter_with_registry!(name, "Of a test.", registry).unwrap()
}

pub fn gauge(registry: &Registry, name: &str) -> IntGauge {
    register_int_gauge_with_registry!(name, "Of a test.", registry).unwrap()
}

/// The number of a series in a text.
pub fn number(text: &str, series: &str) -> i64 {
    let value = |line: &str| line.strip_prefix(series)?.strip_prefix(' ')?.parse::<i64>().ok();
    text.lines().find_map(value).unwrap_or_else(|| panic!("{series} in {text}"))
}

/// The lines of a text that are no comments.
pub fn lines(text: &str) -> Vec<&str> {
    text.lines().filter(|line| !line.starts_with('#')).collect()
}
