//! Pages: 512 bytes, 128 little-endian words. Word 0 is the page number, words 1 to 126 are payload, word 127 is the
//! check.
//!
//! [`from_words`] makes well-formed pages. The other functions change them, so that a test can damage what it likes.

/// Bytes of a page.
pub const PAGE_BYTES: usize = 512;
/// Words of a page.
pub const PAGE_WORDS: usize = 128;
/// Payload words of a page.
pub const PAYLOAD_WORDS: usize = 126;
/// Place of the page number among a page's words.
pub const NUMBER_AT: usize = 0;
/// Place of the check among a page's words.
pub const CHECK_AT: usize = 127;
/// The most pages that an image may have: 59,904 bytes.
pub const MAX_PAGES: usize = 117;

/// The check of a page: the wrapping sum of word i times (253 − 2i), i from 0 to 126.
pub fn check(page: &[u32; PAGE_WORDS]) -> u32 {
    let weights = (0..CHECK_AT as u32).map(|i| 253 - 2 * i);
    page.iter().zip(weights).fold(0, |sum, (&word, weight)| sum.wrapping_add(word.wrapping_mul(weight)))
}

/// The number of pages that `words` payload words need.
pub const fn page_count(words: usize) -> usize {
    words.div_ceil(PAYLOAD_WORDS)
}

/// The least number of pages that hold these payload words, numbered from 0, padded with zeros and with their checks.
pub fn from_words(words: &[u32]) -> Vec<u8> {
    let mut pages = Vec::with_capacity(page_count(words.len()) * PAGE_BYTES);
    for payload in words.chunks(PAYLOAD_WORDS) {
        push_page(&mut pages, payload);
    }
    pages
}

/// Adds one page: the next number, this payload of at most 126 words, zeros, and the check.
pub fn push_page(pages: &mut Vec<u8>, payload: &[u32]) {
    assert!(payload.len() <= PAYLOAD_WORDS);
    let mut page = [0; PAGE_WORDS];
    page[NUMBER_AT] = (pages.len() / PAGE_BYTES) as u32;
    page[1..1 + payload.len()].copy_from_slice(payload);
    page[CHECK_AT] = check(&page);
    for word in page {
        pages.extend_from_slice(&word.to_le_bytes());
    }
}

/// Words as bytes, lowest byte first: of the words of an image, its records as they are lent.
pub fn to_bytes(words: &[u32]) -> Vec<u8> {
    words.iter().flat_map(|word| word.to_le_bytes()).collect()
}

/// Word `i` of a page.
pub fn word(pages: &[u8], page: usize, i: usize) -> u32 {
    let at = byte_at(page, i);
    u32::from_le_bytes([pages[at], pages[at + 1], pages[at + 2], pages[at + 3]])
}

/// Sets word `i` of a page, and leaves the check as it was.
pub fn set_word(pages: &mut [u8], page: usize, i: usize, value: u32) {
    let at = byte_at(page, i);
    pages[at..at + 4].copy_from_slice(&value.to_le_bytes());
}

/// Sets the check of a page to the one that its words call for.
pub fn seal(pages: &mut [u8], page: usize) {
    let words = std::array::from_fn(|i| word(pages, page, i));
    set_word(pages, page, CHECK_AT, check(&words));
}

/// Sets a page's number, and its check with it.
pub fn set_number(pages: &mut [u8], page: usize, number: u32) {
    set_word(pages, page, NUMBER_AT, number);
    seal(pages, page);
}

/// Sets payload word `k`, counted over all pages (padding too), and the check of its page with it.
pub fn set_payload_word(pages: &mut [u8], k: usize, value: u32) {
    let page = k / PAYLOAD_WORDS;
    set_word(pages, page, 1 + k % PAYLOAD_WORDS, value);
    seal(pages, page);
}

fn byte_at(page: usize, i: usize) -> usize {
    page * PAGE_BYTES + 4 * i
}

#[cfg(test)]
mod tests {
    use super::*;

    #[test]
    fn check_of_the_paper() {
        let mut page = [0; PAGE_WORDS];
        page[1] = 1;
        assert_eq!(check(&page), 251);
    }

    #[test]
    fn check_weighs_every_word_but_the_last_and_wraps() {
        let one_at = |i: usize| {
            let mut page = [0; PAGE_WORDS];
            page[i] = 1;
            check(&page)
        };
        assert_eq!(one_at(0), 253);
        assert_eq!(one_at(126), 1);
        assert_eq!(one_at(127), 0);
        // The weights 253, 251, .. 1 add up to 127².
        assert_eq!(check(&[u32::MAX; PAGE_WORDS]), 0u32.wrapping_sub(127 * 127));
    }

    #[test]
    fn least_number_of_pages() {
        assert_eq!([0, 1, 126, 127, 252, 253].map(page_count), [0, 1, 1, 2, 2, 3]);
        for words in [0, 1, 126, 127, 300] {
            assert_eq!(from_words(&vec![7; words]).len(), page_count(words) * PAGE_BYTES);
        }
    }

    #[test]
    fn words_go_to_their_pages() {
        let words: Vec<u32> = (1000..1130).collect();
        let pages = from_words(&words);
        assert_eq!((word(&pages, 0, NUMBER_AT), word(&pages, 1, NUMBER_AT)), (0, 1));
        assert_eq!((word(&pages, 0, 1), word(&pages, 0, 126)), (1000, 1125));
        assert_eq!((word(&pages, 1, 1), word(&pages, 1, 4)), (1126, 1129));
        assert!((5..CHECK_AT).all(|i| word(&pages, 1, i) == 0));
        assert_eq!(pages[4..8], [0xe8, 3, 0, 0]);
    }

    #[test]
    fn a_well_formed_page_is_sealed() {
        let pages = from_words(&[5; 200]);
        let mut again = pages.clone();
        seal(&mut again, 0);
        seal(&mut again, 1);
        assert_eq!(again, pages);
    }

    #[test]
    fn damage_is_where_it_should_be() {
        let well = from_words(&[5; 200]);
        let differ = |damaged: &[u8]| -> Vec<(usize, usize)> {
            let places = (0..2).flat_map(|page| (0..PAGE_WORDS).map(move |i| (page, i)));
            places.filter(|&(page, i)| word(&well, page, i) != word(damaged, page, i)).collect()
        };
        let mut pages = well.clone();
        set_word(&mut pages, 1, 3, 6);
        assert_eq!(differ(&pages), [(1, 3)]);
        seal(&mut pages, 1);
        assert_eq!(differ(&pages), [(1, 3), (1, CHECK_AT)]);

        let mut pages = well.clone();
        set_number(&mut pages, 0, 9);
        assert_eq!(differ(&pages), [(0, NUMBER_AT), (0, CHECK_AT)]);

        let mut pages = well.clone();
        set_payload_word(&mut pages, 126, 6);
        assert_eq!(differ(&pages), [(1, 1), (1, CHECK_AT)]);
    }
}
