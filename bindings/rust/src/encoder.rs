//! Texts of scrapes, where programs ask for them by an encoder.

use crate::error::Result;
use crate::scrape::Gathered;
use std::io::Write;

/// The type of a text, for an HTTP reply.
pub const TEXT_FORMAT: &str = "text/plain; version=0.0.4";

/// Writes what was gathered, as `prometheus::Encoder`.
pub trait Encoder {
    /// Writes it.
    ///
    /// # Errors
    ///
    /// Why nothing was gathered, or [`Error::Io`](crate::Error::Io): the writer failed.
    fn encode<W: Write>(&self, gathered: &Gathered, writer: &mut W) -> Result<()>;

    /// The type of what is written.
    fn format_type(&self) -> &str;
}

/// Writes the text exposition format 0.0.4, as `prometheus::TextEncoder`.
///
/// ```
/// use dirgwako::{gather, register_int_counter, TextEncoder};
/// register_int_counter!("hits_total", "Hits.").unwrap().inc();
/// let text = TextEncoder::new().encode_to_string(&gather()).unwrap();
/// assert!(text.ends_with("\nhits_total 1\n"));
/// ```
#[derive(Clone, Copy, Debug, Default)]
pub struct TextEncoder;

impl TextEncoder {
    /// An encoder.
    pub fn new() -> TextEncoder {
        TextEncoder
    }

    /// Adds the text to a string.
    ///
    /// # Errors
    ///
    /// Why nothing was gathered.
    pub fn encode_utf8(&self, gathered: &Gathered, text: &mut String) -> Result<()> {
        text.push_str(whole(gathered)?);
        Ok(())
    }

    /// The text.
    ///
    /// # Errors
    ///
    /// Why nothing was gathered.
    pub fn encode_to_string(&self, gathered: &Gathered) -> Result<String> {
        whole(gathered).map(str::to_string)
    }
}

fn whole(gathered: &Gathered) -> Result<&str> {
    gathered.text().map_err(|error| match error.number() {
        Some(number) => crate::Error::of(number, error.name().unwrap_or_default()),
        None => crate::Error::Msg(error.to_string()),
    })
}

impl Encoder for TextEncoder {
    fn encode<W: Write>(&self, gathered: &Gathered, writer: &mut W) -> Result<()> {
        Ok(writer.write_all(whole(gathered)?.as_bytes())?)
    }

    fn format_type(&self) -> &str {
        TEXT_FORMAT
    }
}
