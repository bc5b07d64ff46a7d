//! Images that are damaged, so that some rule refuses most of them.

use crate::Rng;
use sir_image::{Image, pages};

/// A damaged copy of an image: a few words changed, pages or bytes gone or more, checks set right or left wrong.
pub fn damaged(image: &Image, rng: &mut Rng) -> Vec<u8> {
    let mut bytes = image.pages();
    for _ in 0..1 + rng.below(2) {
        let count = (bytes.len() / pages::PAGE_BYTES) as u32;
        if count == 0 {
            return bytes;
        }
        let page = rng.below(count) as usize;
        match rng.below(20) {
            0 => bytes.truncate(rng.below(bytes.len() as u32) as usize),
            1 => bytes.truncate(page * pages::PAGE_BYTES),
            2 => bytes.extend([0; 512]),
            3 => pages::set_number(&mut bytes, page, rng.below(4)),
            4 => pages::set_word(&mut bytes, page, rng.below(128) as usize, rng.below(4)),
            5 => pages::push_page(&mut bytes, &[]),
            _ => {
                // Most of the words that are there, and some of the padding.
                let at = rng.below(image.word_count() as u32 + 4);
                let at = (at as usize).min(count as usize * pages::PAYLOAD_WORDS - 1);
                let small = [rng.below(4), rng.below(100), rng.below(600)];
                let value = rng.pick(&[small[0], small[0], small[1], small[2], u32::MAX, u32::MAX - 1, 1 << 16]);
                pages::set_payload_word(&mut bytes, at, value);
            }
        }
    }
    bytes
}
