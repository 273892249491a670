//! What is looked at before there is a registry: names, labels, helps and bounds, by the numbers
//! that the library refuses them by.

use crate::error::{Error, Result};
use crate::opts::Opts;
use crate::sys::{self, BOUNDS, LABELS, LARGEST};

/// The most bytes of a name, a help and a label's value.
const NAME_BYTES: usize = 128;
const HELP_BYTES: usize = 1024;
const VALUE_BYTES: usize = 256;

/// Why this is no label's name.
fn label_fault(name: &str) -> Option<u32> {
    let goes_on = |byte: u8| byte == b'_' || byte.is_ascii_alphanumeric();
    match name.as_bytes() {
        [] => Some(1),
        [first, ..] if first.is_ascii_digit() => Some(2),
        bytes if !bytes.iter().all(|byte| goes_on(*byte)) => Some(2),
        bytes if bytes.len() > NAME_BYTES => Some(3),
        bytes if bytes.starts_with(b"__") => Some(4),
        _ => None,
    }
}

/// Why this is no help.
fn help_fault(help: &str) -> Option<u32> {
    let is_blank = |byte: Option<&u8>| matches!(byte, Some(b' ' | b'\t'));
    let bytes = help.as_bytes();
    if bytes.len() > HELP_BYTES {
        Some(3)
    } else if is_blank(bytes.first()) || is_blank(bytes.last()) {
        Some(5)
    } else {
        None
    }
}

/// Refuses what the library would refuse of a metric with these labels beside its constant ones.
pub(crate) fn check(opts: &Opts, labels: &[String], is_histogram: bool) -> Result<()> {
    let name = opts.fq_name();
    let refused = |number| Error::of(number, &name);
    sys::is_name(&name).map_err(refused)?;
    if let Some(number) = help_fault(&opts.help) {
        return Err(refused(number));
    }
    let all: Vec<&str> = opts.const_labels.keys().chain(labels).map(String::as_str).collect();
    if all.len() > LABELS {
        return Err(refused(9));
    }
    for (at, label) in all.iter().enumerate() {
        if let Some(number) = label_fault(label) {
            return Err(Error::of(number, &format!("{name}, label {label:?}")));
        }
        if all[..at].contains(label) {
            return Err(Error::of(7, &format!("{name}, label {label:?}")));
        }
        if is_histogram && *label == "le" {
            return Err(refused(8));
        }
    }
    match opts.const_labels.iter().find(|(_, value)| value.len() > VALUE_BYTES) {
        Some((label, _)) => Err(Error::of(3, &format!("{name}, value of label {label:?}"))),
        None => Ok(()),
    }
}

/// Refuses labels without values: of a metric that is no family.
pub(crate) fn check_single(opts: &Opts) -> Result<()> {
    match opts.variable_labels.len() {
        0 => Ok(()),
        expect => Err(Error::InconsistentCardinality { expect, got: 0, name: opts.fq_name() }),
    }
}

/// Refuses label values that are too long.
pub(crate) fn check_values(values: &[&str], name: &str) -> Result<()> {
    if values.iter().any(|value| value.len() > VALUE_BYTES) {
        return Err(Error::of(3, &format!("{name}, a label's value")));
    }
    Ok(())
}

/// Refuses what are no bounds.
pub(crate) fn check_bounds(bounds: &[u64], name: &str) -> Result<()> {
    let rise = bounds.windows(2).all(|pair| pair[0] < pair[1]);
    let fit = bounds.len() <= BOUNDS && bounds.iter().all(|bound| *bound <= LARGEST);
    if rise && fit {
        Ok(())
    } else {
        Err(Error::of(10, name))
    }
}

#[cfg(test)]
mod tests {
    use super::*;

    /// Each cause has its own number, and what is near it is taken.
    #[test]
    fn labels_and_helps() {
        let long = "l".repeat(129);
        for (label, fault) in [
            ("code", None),
            ("_x9", None),
            ("", Some(1)),
            ("9x", Some(2)),
            ("a-b", Some(2)),
            ("a:b", Some(2)),
            (&long[..128], None),
            (&long, Some(3)),
            ("__name__", Some(4)),
        ] {
            assert_eq!(label_fault(label), fault, "{label}");
        }
        let long = "h".repeat(1025);
        for (help, fault) in [
            ("", None),
            ("Of it.", None),
            (" x", Some(5)),
            ("x\t", Some(5)),
            (&long[..1024], None),
            (&long, Some(3)),
        ] {
            assert_eq!(help_fault(help), fault, "{help}");
        }
    }
}
