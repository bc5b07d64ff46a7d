//! Images from lent records (request R-3).

use crate::records::Fit;
use crate::{Reference, pages};

/// Records are lent without padding, so their number is just what the counts call for.
const EXACT: Fit = |words, needed| words.len() == needed;

/// The pages of lent records, which are payload words without padding; or the number that refuses them, 14 left out: 6 for
/// fewer than 9 words or no whole number of words, else the first that the reader would give, with 6 for another number of
/// words than the counts call for.
pub fn write(records: &[u8]) -> Result<Vec<u8>, u32> {
    if records.len() < 4 * 9 || !records.len().is_multiple_of(4) {
        return Err(6);
    }
    let words = pages::words(records);
    Reference::of(&words, EXACT)?;
    Ok(pages::holding(&words))
}

/// A call: the number and the length that it gives, and the result slice as it leaves it.
pub fn call_write(records: &[u8], result: &mut [u8]) -> (u32, u64) {
    let pages = write(records).and_then(|pages| if pages.len() > result.len() { Err(14) } else { Ok(pages) });
    crate::put(pages, result)
}
