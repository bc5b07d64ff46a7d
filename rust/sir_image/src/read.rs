//! Records from payload words.

use crate::{pages, Block, Control, Image, Operation, Span};
use crate::{BLOCK_WORDS, HEADER_WORDS, OPERATION_WORDS};

impl Image {
    /// The records of a well-formed image: what [`Image::pages`] was made from. Page numbers, checks, the edition and
    /// padding are not looked at; `None` where a list or a control is none.
    pub fn from_pages(image: &[u8]) -> Option<Image> {
        let pages = image.len() / pages::PAGE_BYTES;
        let places = (0..pages).flat_map(|page| (1..=pages::PAYLOAD_WORDS).map(move |i| (page, i)));
        let words: Vec<u32> = places.map(|(page, i)| pages::word(image, page, i)).collect();
        Image::from_words(&words)
    }

    /// The records in these payload words, of which there may be more.
    pub fn from_words(words: &[u32]) -> Option<Image> {
        let (header, mut rest) = words.split_at_checked(HEADER_WORDS)?;
        let &[_, functions, blocks, operations, operands, targets, locals, init, main] = header else { return None };
        let mut take = |count: u32, each: usize| {
            let (list, after) = rest.split_at_checked((count as usize).checked_mul(each)?)?;
            rest = after;
            Some(list.to_vec())
        };
        let entries = take(functions, 1)?;
        let blocks = take(blocks, BLOCK_WORDS)?;
        let operations = take(operations, OPERATION_WORDS)?;
        Some(Image {
            entries,
            blocks: blocks.chunks(BLOCK_WORDS).map(block).collect::<Option<_>>()?,
            operations: operations.chunks(OPERATION_WORDS).map(operation).collect(),
            operands: take(operands, 1)?,
            targets: take(targets, 1)?,
            locals,
            init,
            main: main.checked_sub(1),
        })
    }
}

fn block(words: &[u32]) -> Option<Block> {
    let control = match words[6] {
        0 => Control::LastOpTerminates,
        1 => Control::InternalReturn,
        2 => Control::ContinuesTo(words[7]),
        3 => Control::Branches { condition: words[7], non_zero: words[8], zero: words[9] },
        4 => Control::Switch {
            condition: words[7],
            first: words[8],
            count: words[9],
            fallback: words[10].checked_sub(1),
        },
        _ => return None,
    };
    Some(Block {
        inputs: Span::new(words[0], words[1]),
        outputs: Span::new(words[2], words[3]),
        operations: Span::new(words[4], words[5]),
        control,
    })
}

fn operation(words: &[u32]) -> Operation {
    Operation {
        code: words[0],
        inputs: Span::new(words[1], words[2]),
        outputs: Span::new(words[3], words[4]),
        extras: [words[5], words[6]],
    }
}

#[cfg(test)]
mod tests {
    use super::*;
    use crate::samples;

    #[test]
    fn what_was_written_is_read() {
        for image in [samples::report(), samples::largest()] {
            assert_eq!(Image::from_pages(&image.pages()), Some(image));
        }
        assert_eq!(Image::from_words(&[1, 1, 1]), None);
    }
}
