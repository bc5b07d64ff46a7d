//! Small images whose words just fill their pages, or need one page more for one word.

use crate::{Rng, small};
use sir_image::pages::PAYLOAD_WORDS;
use sir_image::{Image, MAX_FUNCTIONS};

/// A random image of that kind: one of any shape, made longer by operand words and targets that lie in no range and by functions
/// that nothing calls.
pub fn image(rng: &mut Rng) -> Image {
    let mut image = small::mixed(rng);
    let one_more = rng.below(2) as usize;
    let pages = (image.word_count() - one_more).div_ceil(PAYLOAD_WORDS) + rng.below(2) as usize;
    while image.word_count() < pages * PAYLOAD_WORDS + one_more {
        let (blocks, locals) = (image.blocks.len() as u32, image.locals);
        match rng.below(6) {
            0 if image.entries.len() < MAX_FUNCTIONS => _ = image.function(rng.below(blocks)),
            1 | 2 => image.targets.push(rng.below(blocks)),
            _ if locals > 0 => image.operands.push(rng.below(locals)),
            _ => {}
        }
    }
    image
}
