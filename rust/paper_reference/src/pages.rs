//! Pages: refusals 1 to 3, the payload words, how many pages they take, and the pages of words.

/// Bytes of a page.
const PAGE: usize = 512;
/// The most bytes of an image.
const MOST: usize = 59_904;
/// Payload words of a page.
const PAYLOAD: usize = 126;

/// The payload words of all pages, padding included; or 1, 2 or 3.
pub fn payload(image: &[u8]) -> Result<Vec<u32>, u32> {
    if image.is_empty() || !image.len().is_multiple_of(PAGE) || image.len() > MOST {
        return Err(1);
    }
    let pages: Vec<Vec<u32>> = image.chunks(PAGE).map(words).collect();
    if pages.iter().enumerate().any(|(number, page)| page[0] as usize != number) {
        return Err(2);
    }
    if pages.iter().any(|page| page[127] != check(page)) {
        return Err(3);
    }
    Ok(pages.iter().flat_map(|page| &page[1..127]).copied().collect())
}

/// Whether the payload of some pages is that of the least number that holds the needed words, with zeros past these.
pub fn is_least(payload: &[u32], needed: usize) -> bool {
    payload.len() == needed.div_ceil(PAYLOAD) * PAYLOAD && payload[needed..].iter().all(|&word| word == 0)
}

/// The least number of pages that holds these words: numbers from 0, zeros past the words, and the checks.
pub fn holding(words: &[u32]) -> Vec<u8> {
    let page = |(number, payload): (usize, &[u32])| {
        let mut page = vec![number as u32];
        page.extend(payload);
        page.resize(127, 0);
        page.push(check(&page));
        page
    };
    words.chunks(PAYLOAD).enumerate().flat_map(page).flat_map(u32::to_le_bytes).collect()
}

/// Bytes as words, four each.
pub fn words(bytes: &[u8]) -> Vec<u32> {
    bytes.chunks(4).map(|word| u32::from_le_bytes(word.try_into().expect("four bytes"))).collect()
}

/// The check of a page: its words weighed by the odd numbers from 253 down to 1, modulo 2^32.
fn check(page: &[u32]) -> u32 {
    let sum: u64 = (0..127).map(|i| u64::from(page[i]) * (253 - 2 * i as u64)).sum();
    (sum % (1 << 32)) as u32
}

#[cfg(test)]
mod tests {
    use super::*;

    /// The paper's example: a page zero but for word 1 = 1.
    #[test]
    fn check_of_the_paper() {
        let mut page = vec![0; 128];
        page[1] = 1;
        assert_eq!(check(&page), 251);
    }
}
