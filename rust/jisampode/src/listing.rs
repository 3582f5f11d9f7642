//! A job as text, and its listing.

use core::str;

use crate::engine;
use crate::refusal::Refusal;
use crate::sys;

/// Enough bytes for every listing.
pub const LISTING_BYTES: usize = sys::LISTING_BYTES;

/// The listing of a job's text: the job is read, run on memory of its own, and
/// written out. A job that is refused has a listing too, `(refused N)` or
/// `(refused 12 LINE)`.
///
/// ```
/// assert_eq!(jisampode::list_job(b"(cell 0)\n"), b"(refused 12 1)\n");
/// ```
#[cfg(feature = "std")]
#[must_use]
pub fn list_job(text: &[u8]) -> Vec<u8> {
    let mut listing = vec![0; LISTING_BYTES];
    let length = engine::certain(list_job_into(text, &mut listing));
    listing.truncate(length);
    listing
}

/// Writes the listing of a job's text at the front of the bytes, with 0 after it,
/// and hands back its length. Refused by [`Refusal::Short`] where the bytes are too
/// few; [`LISTING_BYTES`] are always enough.
pub fn list_job_into(text: &[u8], listing: &mut [u8]) -> Result<usize, Refusal> {
    engine::list_job(text, listing)
}

/// The refusal that a listing has, and the line for a text off its form. None for
/// the listing of a job that was run.
///
/// ```
/// use jisampode::{list_job, listed_refusal, Refusal};
///
/// let listing = list_job(b"(cell 0)\n");
/// assert_eq!(listed_refusal(&listing), Some((Refusal::Text, Some(1))));
/// ```
#[must_use]
pub fn listed_refusal(listing: &[u8]) -> Option<(Refusal, Option<u64>)> {
    let words = listing.strip_prefix(b"(refused ")?.strip_suffix(b")\n")?;
    let mut words = str::from_utf8(words).ok()?.splitn(2, ' ');
    let refusal = Refusal::from_number(words.next()?.parse().ok()?)?;
    let line = words.next().map(str::parse).transpose().ok()?;
    Some((refusal, line))
}
