//! Why a call was refused.

use crate::sys;
use std::fmt;

/// What calls answer that can be refused.
pub type Result<T> = std::result::Result<T, Error>;

/// Why a call was refused. [`Error::number`] is the number of `docs/REFUSALS.md`, [`Error::name`]
/// the metric whose call it was.
///
/// ```
/// use dirgwako::{Error, IntCounter};
/// let error = IntCounter::new("9_lives_total", "Lives.").unwrap_err();
/// assert_eq!(error.number(), Some(2));
/// assert_eq!(error.name(), Some("9_lives_total"));
/// assert!(matches!(error, Error::Refused { number: 2, .. }));
/// assert!(error.to_string().starts_with("9_lives_total: "));
/// ```
#[derive(Debug)]
#[non_exhaustive]
pub enum Error {
    /// 19: the registry has a metric of this name, or one whose lines share a name with it, or this
    /// very metric.
    AlreadyReg {
        /// The name that is refused.
        name: String,
    },
    /// 21: there are not as many label values as labels, or a label has another name.
    InconsistentCardinality {
        /// How many labels the family has.
        expect: usize,
        /// How many values were given.
        got: usize,
        /// The family.
        name: String,
    },
    /// 47: changes of one version are of two boards. Metrics that shall agree go into one group.
    TwoBoards {
        /// The metric that is of another board than those before it.
        name: String,
        /// The first metric of the version.
        first: String,
    },
    /// Any other refusal of the library.
    Refused {
        /// Its number.
        number: u32,
        /// The metric, or what else was refused.
        name: String,
    },
    /// A change is of a metric that is not registered.
    NotRegistered {
        /// The metric.
        name: String,
    },
    /// The library that the program is linked with is not one of this crate.
    Library(String),
    /// What a call was given that has no number.
    Msg(String),
    /// A text could not be written.
    Io(std::io::Error),
}

impl Error {
    /// A refusal by the library's number.
    pub(crate) fn of(number: u32, name: &str) -> Error {
        let name = name.to_string();
        match number {
            19 => Error::AlreadyReg { name },
            number => Error::Refused { number, name },
        }
    }

    /// The number of `docs/REFUSALS.md`, if the refusal has one.
    pub fn number(&self) -> Option<u32> {
        match self {
            Error::AlreadyReg { .. } => Some(19),
            Error::InconsistentCardinality { .. } => Some(21),
            Error::TwoBoards { .. } => Some(47),
            Error::Refused { number, .. } => Some(*number),
            Error::NotRegistered { .. } | Error::Library(_) | Error::Msg(_) | Error::Io(_) => None,
        }
    }

    /// The metric that was refused, where it is known.
    pub fn name(&self) -> Option<&str> {
        match self {
            Error::AlreadyReg { name }
            | Error::InconsistentCardinality { name, .. }
            | Error::TwoBoards { name, .. }
            | Error::Refused { name, .. }
            | Error::NotRegistered { name } => Some(name),
            Error::Library(_) | Error::Msg(_) | Error::Io(_) => None,
        }
    }
}

impl fmt::Display for Error {
    fn fmt(&self, f: &mut fmt::Formatter<'_>) -> fmt::Result {
        match self {
            Error::AlreadyReg { name } => write!(f, "{name}: {} (19)", sys::refusal(19)),
            Error::InconsistentCardinality { expect, got, name } => {
                write!(f, "{name}: {got} label values for {expect} labels (21)")
            }
            Error::TwoBoards { name, first } => {
                write!(
                    f,
                    "{name}: it is of another board than {first}, so that they are no one version: \
                     give them one group (47)"
                )
            }
            Error::Refused { number, name } => {
                write!(f, "{name}: {} ({number})", sys::refusal(*number))
            }
            Error::NotRegistered { name } => write!(f, "{name}: it is not registered"),
            Error::Library(what) | Error::Msg(what) => f.write_str(what),
            Error::Io(error) => write!(f, "the text could not be written: {error}"),
        }
    }
}

impl std::error::Error for Error {
    fn source(&self) -> Option<&(dyn std::error::Error + 'static)> {
        match self {
            Error::Io(error) => Some(error),
            _ => None,
        }
    }
}

impl From<std::io::Error> for Error {
    fn from(error: std::io::Error) -> Error {
        Error::Io(error)
    }
}
