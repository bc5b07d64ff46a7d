//! What the paper says of each operation code.

/// Both kinds of internal call.
pub fn is_call(code: u32) -> bool {
    code == 25 || code == 26
}

/// Allocations of a size that a local holds.
pub fn is_dynamic_allocation(code: u32) -> bool {
    code == 21 || code == 22
}

/// Allocations of a size that the operation holds.
pub fn is_static_allocation(code: u32) -> bool {
    code == 82 || code == 83
}

/// All allocations.
pub fn is_allocation(code: u32) -> bool {
    is_dynamic_allocation(code) || is_static_allocation(code)
}

/// Whether an output of the code may point where its inputs do.
pub fn derives(code: u32) -> bool {
    matches!(code, 27..=37 | 44..=51 | 85)
}

/// Whether these operand counts are right for a known code. `sir_image` has them too, on purpose: this is a second reading.
pub fn counts_fit(code: u32, inputs: u32, outputs: u32) -> bool {
    let fixed = match code {
        0 | 27..=33 | 36..=42 | 44..=46 | 48..=51 => (2, 1),
        1 | 2 | 5 | 8..=11 | 13 | 21 | 22 | 43 | 47 | 52 | 84 | 85 => (1, 1),
        15 | 34 | 35 => (3, 1),
        16 => (4, 1),
        17 | 18 => (7, 1),
        19 | 20 => (6, 1),
        3 | 4 | 7 | 23 => (3, 0),
        6 => (4, 0),
        12 | 14 | 24 | 76 | 78 => (2, 0),
        71 => (2, 0),
        72 => (3, 0),
        73 => (4, 0),
        74 => (5, 0),
        75 => (6, 0),
        80 => (1, 0),
        77 | 79 | 89 => (0, 0),
        53..=70 | 81..=83 | 86..=88 | 90..=92 => (0, 1),
        25 => return true,
        26 => return outputs == 0,
        _ => return false,
    };
    (inputs, outputs) == fixed
}

/// The logs, which have an offset, a size, and as many topics as their names say.
pub fn is_log(code: u32) -> bool {
    (71..=75).contains(&code)
}

/// Whether the input at a position is an escaping one.
pub fn escapes(code: u32, position: usize) -> bool {
    let positions: &[usize] = match code {
        0 => &[1],
        // CallDataCopy, CodeCopy, ReturnDataCopy
        3 | 4 | 7 => &[1, 2],
        // ExtCodeCopy
        6 => &[0, 2, 3],
        // Create, Create2
        15 => &[0, 2],
        16 => &[0, 2, 3],
        // Call, CallCode
        17 | 18 => &[0, 1, 2, 4, 6],
        // DelegateCall, StaticCall
        19 | 20 => &[0, 1, 3, 5],
        // MemoryCopy, MemoryStore
        23 => &[2],
        24 => &[1],
        // Log1 to Log4: their topics
        72 => &[2],
        73 => &[2, 3],
        74 => &[2, 3, 4],
        75 => &[2, 3, 4, 5],
        1 | 2 | 5 | 8..=14 | 21 | 22 | 25 | 26 => return true,
        _ => &[],
    };
    positions.contains(&position)
}
