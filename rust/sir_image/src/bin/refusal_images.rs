//! Writes images that try every clause of the refusals of an image but the last (12), and an index of them, to a folder.
//! From the folder `rust`:
//!
//! ```text
//! cargo run -p sir_image --bin refusal_images -- ../crates/refusals/data
//! ```
//!
//! The index has a line for each image, its name and its number. It is also the `stdout` of the crate `refusals`, and
//! its names are the crate's `args`; a test holds the two files to it.
//!
//! The expected numbers stand in the tables below. They are read off the paper, not computed: where a row and an
//! implementation differ, one of the two misreads it. An image named r07_.. gives 7, one named ok_.. gives 0. Where
//! nothing else is said an image of a table before the last breaks that one rule only. No image named ok_.. breaks
//! rule 12.

#[path = "refusal_images/images.rs"]
mod images;

use images::*;
use sir_image::pages::{CHECK_AT, NUMBER_AT};
use sir_image::samples::{largest, mutual_calls, report};
use sir_image::{Code, Control, Image, Span};
use std::path::Path;
use std::{env, fs, io};

/// Name, expected number, image.
type Row = (&'static str, u32, fn() -> Vec<u8>);

const MAX: u32 = u32::MAX;

/// Images that are taken.
const ACCEPTED: &[Row] = &[
    ("ok_report", 0, || report().pages()),
    ("ok_every_control_kind", 0, || kinds().pages()),
    ("ok_every_code", 0, || every_code().pages()),
    ("ok_no_locals", 0, || small().pages()),
    ("ok_empty_block_of_kind_0", 0, || block_of(&[], &[], Control::LastOpTerminates).pages()),
    ("ok_kind_0_with_outputs", 0, || block_of(&[], &[0, 1], Control::LastOpTerminates).pages()),
    ("ok_return_with_outputs", 0, || block_of(&[], &[0, 1], Control::InternalReturn).pages()),
    ("ok_entry_with_inputs", 0, || block_of(&[0, 1], &[], Control::InternalReturn).pages()),
    ("ok_outputs_repeat_a_local", 0, || block_of(&[], &[2, 2], Control::InternalReturn).pages()),
    ("ok_block_on_to_itself", 0, || block_of(&[0, 1], &[1, 0], Control::ContinuesTo(0)).pages()),
    ("ok_branch_with_equal_targets", 0, || branches(2, 2, None).pages()),
    ("ok_operands_repeat_a_local", 0, || operation_on(Code::Add, &[0, 0], &[8]).pages()),
    ("ok_operation_in_no_range", 0, || loose(small(), Code::Noop, &[], &[]).pages()),
    ("ok_operand_words_in_no_run", 0, || of_words(100).pages()),
    ("ok_targets_in_no_switch", 0, || edited(small(), |i| i.targets = vec![0, 0])),
    ("ok_overlapping_ranges", 0, || overlapping().pages()),
    ("ok_run_across_page_end", 0, || long_run().pages()),
    ("ok_block_across_page_end", 0, || eleven_blocks().pages()),
    ("ok_512_inputs_of_a_block", 0, || block_of(&locals(0, 512), &[], Control::LastOpTerminates).pages()),
    ("ok_two_functions_call_each_other", 0, || mutual_calls().pages()),
    ("ok_functions_share_an_entry", 0, || edited(small(), |i| i.entries = vec![0, 0])),
    ("ok_init_is_the_last_function", 0, || edited(kinds(), |i| i.init = 1)),
    ("ok_operations_after_stop", 0, || {
        edited(small(), |i| {
            i.operation(Code::Noop, &[], &[]);
            i.blocks[0].operations.end = 2;
        })
    }),
];

/// Carriage: 1 to 3.
const CARRIAGE: &[Row] = &[
    ("r01_length_0", 1, Vec::new),
    ("r01_length_1", 1, || cut(small().pages(), 1)),
    ("r01_length_511", 1, || cut(small().pages(), 511)),
    ("r01_length_513", 1, || [small().pages(), vec![0]].concat()),
    ("r01_length_1023", 1, || cut(two_pages().pages(), 1023)),
    ("ok_length_59904", 0, || largest().pages()),
    // No counts call for a 118th page, so 6 is broken too.
    ("r01_length_60416", 1, || one_more(largest().pages())),
    ("r02_only_page", 2, || renumber(small().pages(), 0, 1)),
    ("r02_only_page_4294967295", 2, || renumber(small().pages(), 0, MAX)),
    ("r02_first_of_two", 2, || renumber(two_pages().pages(), 0, 1)),
    ("r02_last_of_two", 2, || renumber(two_pages().pages(), 1, 0)),
    ("r02_last_of_two_high_byte", 2, || renumber(two_pages().pages(), 1, 0x0100_0001)),
    ("r02_middle_of_three", 2, || renumber(of_words(300).pages(), 1, 3)),
    // The records are then nonsense.
    ("r02_pages_swapped", 2, || swapped(two_pages().pages())),
    ("r02_numbered_from_1", 2, || renumber(renumber(two_pages().pages(), 0, 1), 1, 2)),
    ("r03_only_page", 3, || flip_check(small().pages(), 0, 1)),
    ("r03_only_page_top_bit", 3, || flip_check(small().pages(), 0, 1 << 31)),
    ("r03_only_page_check_0", 3, || raw(small().pages(), 0, CHECK_AT, 0)),
    ("r03_first_of_two", 3, || flip_check(two_pages().pages(), 0, 1)),
    ("r03_last_of_two", 3, || flip_check(two_pages().pages(), 1, 1)),
    // One bit of a static allocation's size, so that the records stay fine.
    ("r03_payload_bit", 3, || raw(report().pages(), 0, 1 + report().operation_at(1) + 5, 32 + (1 << 18))),
    // Entry blocks 0 and 3 change places: the plain sum of the words stays.
    ("r03_words_exchanged", 3, || {
        let at = 1 + kinds().entry_at(0);
        raw(raw(kinds().pages(), 0, at, 3), 0, at + 1, 0)
    }),
];

/// Edition, counts, page count and padding: 4 to 6.
const HEADER: &[Row] = &[
    ("r04_edition_0", 4, || header(0, 0)),
    ("r04_edition_2", 4, || header(0, 2)),
    ("r04_edition_257", 4, || header(0, 257)),
    ("r04_edition_4294967295", 4, || header(0, MAX)),
    ("r05_functions_65", 5, || edited(small(), |i| i.entries = vec![0; 65])),
    ("r05_blocks_257", 5, || edited(small(), |i| i.blocks = vec![i.blocks[0]; 257])),
    ("r05_operations_1025", 5, || edited(small(), |i| i.operations = vec![i.operations[0]; 1025])),
    ("r05_operands_4097", 5, || edited(of_words(30), |i| i.operands = vec![0; 4097])),
    ("r05_targets_513", 5, || edited(small(), |i| i.targets = vec![0; 513])),
    ("r05_locals_513", 5, || edited(small(), |i| i.locals = 513)),
    ("ok_locals_512", 0, || edited(small(), |i| i.locals = 512)),
    // Without a function init, and without a block the entry, is not below its count (8).
    ("r05_no_function", 5, || edited(small(), |i| i.entries.clear())),
    ("r05_no_block", 5, || edited(small(), |i| i.blocks.clear())),
    ("r05_all_counts_0", 5, || Image::new(0).pages()),
    // No page count is right for these (6), but for the last.
    ("r05_functions_4294967295", 5, || header(1, MAX)),
    ("r05_blocks_4294967295", 5, || header(2, MAX)),
    ("r05_operations_4294967295", 5, || header(3, MAX)),
    ("r05_operands_4294967295", 5, || header(4, MAX)),
    ("r05_targets_4294967295", 5, || header(5, MAX)),
    ("r05_locals_4294967295", 5, || header(6, MAX)),
    // 11 times this is 2^32 + 7.
    ("r05_blocks_that_wrap", 5, || header(2, 390_451_573)),
    ("ok_126_words", 0, || of_words(126).pages()),
    ("ok_127_words", 0, || of_words(127).pages()),
    ("r06_a_page_too_many", 6, || one_more(small().pages())),
    ("r06_a_page_too_many_after_126_words", 6, || one_more(of_words(126).pages())),
    ("r06_a_page_too_few", 6, || cut(two_pages().pages(), 512)),
    ("r06_a_page_too_few_by_one_word", 6, || cut(of_words(127).pages(), 512)),
    ("r06_one_page_of_117", 6, || cut(largest().pages(), 512)),
    ("r06_first_padding_word", 6, || set(small().pages(), 28, 1)),
    ("r06_last_padding_word", 6, || set(small().pages(), 125, 1)),
    ("r06_last_padding_word_top_bit", 6, || set(small().pages(), 125, 1 << 31)),
    ("r06_first_padding_word_of_two_pages", 6, || set(of_words(127).pages(), 127, 1)),
    ("r06_last_padding_word_of_two_pages", 6, || set(of_words(127).pages(), 251, 1)),
];

/// Codes, kinds and unused fields: 7.
const FORMS: &[Row] = &[
    ("r07_code_93", 7, || edited(kinds(), |i| i.operations[STOP].code = 93)),
    ("r07_code_256", 7, || edited(kinds(), |i| i.operations[STOP].code = 256)),
    ("r07_code_4294967295", 7, || edited(kinds(), |i| i.operations[STOP].code = MAX)),
    ("r07_code_in_no_range", 7, || edited(kinds(), |i| i.operations[LOOSE_OPERATION].code = 93)),
    ("r07_kind_5", 7, || kind(TERMINATE, 5)),
    ("r07_kind_256", 7, || kind(TERMINATE, 256)),
    ("r07_kind_4294967295", 7, || kind(TERMINATE, MAX)),
    ("r07_kind_unvisited", 7, || kind(LOOSE, 5)),
    ("r07_kind_0_field_0", 7, || field(TERMINATE, 0, 1)),
    ("r07_kind_0_field_1", 7, || field(TERMINATE, 1, 1)),
    ("r07_kind_0_field_2", 7, || field(TERMINATE, 2, 1)),
    ("r07_kind_0_field_3", 7, || field(TERMINATE, 3, 1)),
    ("r07_kind_1_field_0", 7, || field(RETURN, 0, 1)),
    ("r07_kind_1_field_1", 7, || field(RETURN, 1, 1)),
    ("r07_kind_1_field_2", 7, || field(RETURN, 2, 1)),
    ("r07_kind_1_field_3", 7, || field(RETURN, 3, 1)),
    ("r07_kind_2_field_1", 7, || field(CONTINUE, 1, 1)),
    ("r07_kind_2_field_2", 7, || field(CONTINUE, 2, 1)),
    ("r07_kind_2_field_3", 7, || field(CONTINUE, 3, 1)),
    ("r07_kind_3_field_3", 7, || field(BRANCH, 3, 1)),
    ("r07_kind_3_field_3_top_bit", 7, || field(BRANCH, 3, 1 << 31)),
    ("r07_field_unvisited", 7, || field(LOOSE, 3, 1)),
    ("r07_field_across_page_end", 7, || set(eleven_blocks().pages(), eleven_blocks().block_at(10) + 10, 1)),
    ("r07_code_0_first_extra", 7, || extras(Code::Keccak256, [1, 0])),
    ("r07_code_0_second_extra", 7, || extras(Code::Keccak256, [0, 1])),
    ("r07_code_21_first_extra", 7, || extras(Code::DynamicAllocZeroed, [1, 0])),
    ("r07_code_22_second_extra", 7, || extras(Code::DynamicAllocAnyBytes, [0, 1])),
    ("r07_code_24_first_extra", 7, || extras(Code::MemoryStore, [1, 0])),
    ("r07_code_24_second_extra", 7, || extras(Code::MemoryStore, [0, 1])),
    ("r07_code_25_second_extra", 7, || extras(Code::InternalCall, [0, 1])),
    ("r07_code_26_second_extra", 7, || extras(Code::InternalCallNever, [0, 1])),
    ("r07_code_27_first_extra", 7, || extras(Code::Add, [1, 0])),
    ("r07_code_27_second_extra", 7, || extras(Code::Add, [0, 1])),
    ("r07_code_81_first_extra", 7, || extras(Code::AcquireFreePointer, [1, 0])),
    ("r07_code_81_second_extra", 7, || extras(Code::AcquireFreePointer, [0, 1])),
    ("r07_code_84_first_extra", 7, || extras(Code::MemoryLoad, [1, 0])),
    ("r07_code_84_second_extra", 7, || extras(Code::MemoryLoad, [0, 1])),
    ("r07_code_86_first_extra", 7, || extras(Code::SetSmallConst, [1, 0])),
    ("r07_code_92_second_extra", 7, || extras(Code::RuntimeLength, [0, 1])),
    ("r07_static_id_4294967295_on_code_25", 7, || extras(Code::InternalCall, [0, MAX])),
    ("r07_static_id_4294967295_on_code_81", 7, || extras(Code::AcquireFreePointer, [0, MAX])),
    ("r07_extra_in_no_range", 7, || edited(kinds(), |i| i.operations[LOOSE_OPERATION].extras = [0, 1])),
];

/// Ranges and ids: 8. The image `kinds` has 2 functions, 6 blocks, 5 operations, 9 operand words, 2 targets, 5 locals.
const REFERENCES: &[Row] = &[
    ("r08_block_inputs_start_above_end", 8, || block_range(RETURN, INPUTS, 2, 1)),
    ("r08_block_inputs_end_above_list", 8, || block_range(RETURN, INPUTS, 9, 10)),
    ("r08_block_outputs_start_above_end", 8, || block_range(RETURN, OUTPUTS, 2, 1)),
    ("r08_block_outputs_end_above_list", 8, || block_range(RETURN, OUTPUTS, 9, 10)),
    ("r08_block_operations_start_above_end", 8, || block_range(TERMINATE, OPERATIONS, 4, 3)),
    ("r08_block_operations_end_above_list", 8, || block_range(TERMINATE, OPERATIONS, 3, 6)),
    ("r08_operation_inputs_start_above_end", 8, || operation_range(CALL, INPUTS, 2, 1)),
    ("r08_operation_inputs_end_above_list", 8, || operation_range(CALL, INPUTS, 8, 10)),
    ("r08_operation_outputs_start_above_end", 8, || operation_range(CALL, OUTPUTS, 2, 1)),
    ("r08_operation_outputs_end_above_list", 8, || operation_range(CALL, OUTPUTS, 8, 10)),
    ("ok_empty_ranges_at_the_end", 0, || {
        edited(kinds(), |i| {
            i.blocks[TERMINATE].inputs = Span::new(9, 9);
            i.blocks[TERMINATE].outputs = Span::new(9, 9);
            i.blocks[TERMINATE].operations = Span::new(5, 5);
            i.operations[CALL].inputs = Span::new(9, 9);
            i.operations[CALL].outputs = Span::new(9, 9);
        })
    }),
    ("r08_empty_block_inputs_past_the_end", 8, || block_range(TERMINATE, INPUTS, 10, 10)),
    ("r08_empty_block_outputs_past_the_end", 8, || block_range(TERMINATE, OUTPUTS, 10, 10)),
    ("r08_empty_block_operations_past_the_end", 8, || block_range(TERMINATE, OPERATIONS, 6, 6)),
    ("r08_empty_operation_inputs_past_the_end", 8, || operation_range(STOP, INPUTS, 10, 10)),
    ("r08_empty_operation_outputs_past_the_end", 8, || operation_range(STOP, OUTPUTS, 10, 10)),
    ("r08_operation_inputs_to_4294967295", 8, || operation_range(CALL, INPUTS, 0, MAX)),
    ("r08_operation_inputs_from_4294967295", 8, || operation_range(CALL, INPUTS, MAX, 0)),
    ("r08_block_inputs_start_above_end_above_list", 8, || block_range(RETURN, INPUTS, 11, 10)),
    ("r08_block_operations_to_4294967295", 8, || block_range(TERMINATE, OPERATIONS, 0, MAX)),
    ("r08_block_range_unvisited", 8, || block_range(LOOSE, OPERATIONS, 5, 4)),
    ("r08_operation_range_in_no_range", 8, || {
        edited(kinds(), |i| {
            i.operations[LOOSE_OPERATION].code = Code::InternalCall.into();
            i.operations[LOOSE_OPERATION].outputs = Span::new(9, 10);
        })
    }),
    ("r08_switch_of_all_targets_and_one", 8, || switch_over(0, 3)),
    // The switch of `kinds` has all targets.
    ("ok_switch_of_the_last_target", 0, || {
        edited(kinds(), |i| {
            i.blocks[SWITCH].control = Control::Switch { condition: 4, first: 1, count: 1, fallback: Some(5) }
        })
    }),
    ("ok_switch_empty_at_the_end", 0, || switch_over(2, 0)),
    ("r08_switch_empty_past_the_end", 8, || switch_over(3, 0)),
    ("r08_switch_one_target_past_the_end", 8, || switch_over(2, 1)),
    ("r08_switch_end_wraps_to_0", 8, || switch_over(MAX, 1)),
    ("r08_switch_count_wraps_to_1", 8, || switch_over(2, MAX)),
    ("r08_switch_halves_wrap_to_0", 8, || switch_over(1 << 31, 1 << 31)),
    ("r08_switch_end_wraps_and_no_target", 8, || {
        edited(block_of(&[], &[], Control::LastOpTerminates), |i| {
            i.blocks[0].control = Control::Switch { condition: 0, first: MAX, count: 1, fallback: None }
        })
    }),
    ("ok_switch_in_an_image_without_targets", 0, || {
        edited(block_of(&[], &[], Control::LastOpTerminates), |i| i.blocks[0].control = i.switch(0, &[], None))
    }),
    ("r08_init", 8, || edited(kinds(), |i| i.init = 2)),
    ("r08_init_4294967295", 8, || edited(kinds(), |i| i.init = MAX)),
    ("ok_main_is_the_last_function", 0, || {
        edited(small(), |i| {
            i.entries = vec![0, 0, 0];
            i.main = Some(2);
        })
    }),
    ("ok_no_main", 0, || edited(kinds(), |i| i.main = None)),
    ("r08_main", 8, || edited(kinds(), |i| i.main = Some(2))),
    ("r08_main_4294967295", 8, || set(kinds().pages(), 8, MAX)),
    ("r08_entry_of_the_first_function", 8, || edited(kinds(), |i| i.entries[0] = 6)),
    ("r08_entry_of_the_last_function", 8, || edited(kinds(), |i| i.entries[1] = 6)),
    ("r08_entry_of_an_unvisited_function", 8, || edited(small(), |i| i.entries.push(1))),
    ("r08_continue_target", 8, || field(CONTINUE, 0, 6)),
    ("r08_continue_target_256", 8, || field(CONTINUE, 0, 256)),
    ("r08_continue_target_4294967295", 8, || field(CONTINUE, 0, MAX)),
    ("r08_continue_target_unvisited", 8, || edited(kinds(), |i| i.blocks[LOOSE].control = Control::ContinuesTo(6))),
    ("r08_branch_condition", 8, || field(BRANCH, 0, 5)),
    ("r08_branch_non_zero_target", 8, || field(BRANCH, 1, 6)),
    ("r08_branch_zero_target", 8, || field(BRANCH, 2, 6)),
    ("ok_branch_ids_at_their_ends", 0, || {
        edited(kinds(), |i| i.blocks[BRANCH].control = Control::Branches { condition: 4, non_zero: 5, zero: 5 })
    }),
    ("r08_switch_condition", 8, || field(SWITCH, 0, 5)),
    ("ok_fallback_is_the_last_block", 0, || field(SWITCH, 3, 6)),
    ("ok_no_fallback", 0, || field(SWITCH, 3, 0)),
    ("r08_fallback", 8, || field(SWITCH, 3, 7)),
    ("r08_fallback_4294967295", 8, || field(SWITCH, 3, MAX)),
    ("r08_case_target_first", 8, || edited(kinds(), |i| i.targets[0] = 6)),
    ("r08_case_target_last", 8, || edited(kinds(), |i| i.targets[1] = 6)),
    ("r08_case_target_in_no_switch", 8, || edited(small(), |i| i.targets = vec![0, 1])),
    ("r08_operand_first", 8, || edited(kinds(), |i| i.operands[0] = 5)),
    ("r08_operand_last", 8, || edited(kinds(), |i| i.operands[8] = 5)),
    ("r08_operand_65536", 8, || edited(kinds(), |i| i.operands[8] = 65_536)),
    ("r08_operand_4294967295", 8, || edited(kinds(), |i| i.operands[8] = MAX)),
    ("r08_operand_in_no_run", 8, || edited(of_words(100), |i| i.operands[71] = 1)),
    ("r08_operand_across_page_end", 8, || edited(long_run(), |i| *i.operands.last_mut().unwrap() = i.locals)),
    ("r08_operand_and_no_locals", 8, || edited(small(), |i| i.operands = vec![0])),
    ("r08_condition_and_no_locals", 8, || {
        edited(small(), |i| i.blocks[0].control = Control::Branches { condition: 0, non_zero: 0, zero: 0 })
    }),
    ("r08_callee_of_code_25", 8, || edited(kinds(), |i| i.operations[CALL].extras = [2, 0])),
    ("r08_callee_of_code_26", 8, || extras(Code::InternalCallNever, [1, 0])),
    ("r08_callee_4294967295", 8, || edited(kinds(), |i| i.operations[CALL].extras = [MAX, 0])),
    ("r08_callee_in_no_range", 8, || {
        edited(small(), |i| {
            i.operation_with(Code::InternalCall, &[], &[], [1, 0]);
        })
    }),
    ("ok_static_id_4294967294_on_code_82", 0, || extras(Code::StaticAllocZeroed, [MAX, MAX - 1])),
    ("ok_static_id_4294967294_on_code_83", 0, || extras(Code::StaticAllocAnyBytes, [MAX, MAX - 1])),
    ("r08_static_id_4294967295_on_code_82", 8, || extras(Code::StaticAllocZeroed, [0, MAX])),
    ("r08_static_id_4294967295_on_code_83", 8, || extras(Code::StaticAllocAnyBytes, [0, MAX])),
    ("r08_static_id_in_no_range", 8, || {
        edited(kinds(), |i| {
            i.operation_with(Code::StaticAllocZeroed, &[], &[3], [0, MAX]);
        })
    }),
];

/// Operand counts: 9. One code of every group, with too few and too many on either side.
const OPERAND_COUNTS: &[Row] = &[
    ("r09_code_0_takes_2_not_1", 9, || operation(Code::Keccak256, 1, 1)),
    ("r09_code_0_takes_2_not_3", 9, || operation(Code::Keccak256, 3, 1)),
    ("r09_code_0_gives_1_not_0", 9, || operation(Code::Keccak256, 2, 0)),
    ("r09_code_0_gives_1_not_2", 9, || operation(Code::Keccak256, 2, 2)),
    ("r09_code_27_takes_2_not_1", 9, || operation(Code::Add, 1, 1)),
    ("r09_code_51_gives_1_not_0", 9, || operation(Code::Sar, 2, 0)),
    ("r09_code_1_takes_1_not_0", 9, || operation(Code::Balance, 0, 1)),
    ("r09_code_1_takes_1_not_2", 9, || operation(Code::Balance, 2, 1)),
    ("r09_code_1_gives_1_not_0", 9, || operation(Code::Balance, 1, 0)),
    ("r09_code_1_gives_1_not_2", 9, || operation(Code::Balance, 1, 2)),
    ("r09_code_21_takes_1_not_0", 9, || operation(Code::DynamicAllocZeroed, 0, 1)),
    ("r09_code_85_gives_1_not_2", 9, || operation(Code::SetCopy, 1, 2)),
    ("r09_code_15_takes_3_not_2", 9, || operation(Code::Create, 2, 1)),
    ("r09_code_15_takes_3_not_4", 9, || operation(Code::Create, 4, 1)),
    ("r09_code_15_gives_1_not_0", 9, || operation(Code::Create, 3, 0)),
    ("r09_code_15_gives_1_not_2", 9, || operation(Code::Create, 3, 2)),
    ("r09_code_34_takes_3_not_2", 9, || operation(Code::AddMod, 2, 1)),
    ("r09_code_16_takes_4_not_3", 9, || operation(Code::Create2, 3, 1)),
    ("r09_code_16_takes_4_not_5", 9, || operation(Code::Create2, 5, 1)),
    ("r09_code_16_gives_1_not_0", 9, || operation(Code::Create2, 4, 0)),
    ("r09_code_16_gives_1_not_2", 9, || operation(Code::Create2, 4, 2)),
    ("r09_code_17_takes_7_not_6", 9, || operation(Code::Call, 6, 1)),
    ("r09_code_17_takes_7_not_8", 9, || operation(Code::Call, 8, 1)),
    ("r09_code_17_gives_1_not_0", 9, || operation(Code::Call, 7, 0)),
    ("r09_code_17_gives_1_not_2", 9, || operation(Code::Call, 7, 2)),
    ("r09_code_19_takes_6_not_5", 9, || operation(Code::DelegateCall, 5, 1)),
    ("r09_code_19_takes_6_not_7", 9, || operation(Code::DelegateCall, 7, 1)),
    ("r09_code_19_gives_1_not_0", 9, || operation(Code::DelegateCall, 6, 0)),
    ("r09_code_19_gives_1_not_2", 9, || operation(Code::DelegateCall, 6, 2)),
    ("r09_code_3_takes_3_not_2", 9, || operation(Code::CallDataCopy, 2, 0)),
    ("r09_code_3_takes_3_not_4", 9, || operation(Code::CallDataCopy, 4, 0)),
    ("r09_code_3_gives_0_not_1", 9, || operation(Code::CallDataCopy, 3, 1)),
    ("r09_code_6_takes_4_not_3", 9, || operation(Code::ExtCodeCopy, 3, 0)),
    ("r09_code_6_takes_4_not_5", 9, || operation(Code::ExtCodeCopy, 5, 0)),
    ("r09_code_6_gives_0_not_1", 9, || operation(Code::ExtCodeCopy, 4, 1)),
    ("r09_code_12_takes_2_not_1", 9, || operation(Code::SStore, 1, 0)),
    ("r09_code_12_takes_2_not_3", 9, || operation(Code::SStore, 3, 0)),
    ("r09_code_12_gives_0_not_1", 9, || operation(Code::SStore, 2, 1)),
    ("r09_code_71_takes_2_not_1", 9, || operation(Code::Log0, 1, 0)),
    ("r09_code_71_takes_2_not_3", 9, || operation(Code::Log0, 3, 0)),
    ("r09_code_71_gives_0_not_1", 9, || operation(Code::Log0, 2, 1)),
    ("r09_code_72_takes_3_not_2", 9, || operation(Code::Log1, 2, 0)),
    ("r09_code_73_takes_4_not_3", 9, || operation(Code::Log2, 3, 0)),
    ("r09_code_74_takes_5_not_4", 9, || operation(Code::Log3, 4, 0)),
    ("r09_code_75_takes_6_not_5", 9, || operation(Code::Log4, 5, 0)),
    ("r09_code_75_takes_6_not_7", 9, || operation(Code::Log4, 7, 0)),
    ("r09_code_75_gives_0_not_1", 9, || operation(Code::Log4, 6, 1)),
    ("r09_code_80_takes_1_not_0", 9, || operation(Code::SelfDestruct, 0, 0)),
    ("r09_code_80_takes_1_not_2", 9, || operation(Code::SelfDestruct, 2, 0)),
    ("r09_code_80_gives_0_not_1", 9, || operation(Code::SelfDestruct, 1, 1)),
    ("r09_code_77_takes_0_not_1", 9, || operation(Code::Stop, 1, 0)),
    ("r09_code_77_gives_0_not_1", 9, || operation(Code::Stop, 0, 1)),
    ("r09_code_53_takes_0_not_1", 9, || operation(Code::Address, 1, 1)),
    ("r09_code_53_gives_1_not_0", 9, || operation(Code::Address, 0, 0)),
    ("r09_code_53_gives_1_not_2", 9, || operation(Code::Address, 0, 2)),
    ("r09_code_82_takes_0_not_1", 9, || operation(Code::StaticAllocZeroed, 1, 1)),
    ("r09_code_83_gives_1_not_2", 9, || operation(Code::StaticAllocAnyBytes, 0, 2)),
    ("r09_code_92_gives_1_not_0", 9, || operation(Code::RuntimeLength, 0, 0)),
    ("ok_code_25_0_to_0", 0, || operation(Code::InternalCall, 0, 0)),
    ("ok_code_25_8_to_3", 0, || operation(Code::InternalCall, 8, 3)),
    ("ok_code_25_0_to_8", 0, || operation(Code::InternalCall, 0, 8)),
    ("ok_code_26_0_to_0", 0, || operation(Code::InternalCallNever, 0, 0)),
    ("ok_code_26_8_to_0", 0, || operation(Code::InternalCallNever, 8, 0)),
    ("r09_code_26_0_to_1", 9, || operation(Code::InternalCallNever, 0, 1)),
    ("r09_code_26_2_to_2", 9, || operation(Code::InternalCallNever, 2, 2)),
    // A count kept in a byte would take 258 for 2.
    ("r09_code_27_takes_2_not_258", 9, || {
        edited(operation_on(Code::Add, &[0, 1], &[8]), |i| i.operations[0].inputs = i.run(&[0; 258]))
    }),
    ("r09_in_no_range", 9, || edited(kinds(), |i| i.operations[LOOSE_OPERATION].outputs = Span::EMPTY)),
    ("r09_unvisited", 9, || unvisited(operation_on(Code::Add, &[0], &[8]))),
];

/// Block inputs and outputs: 10 and 11.
const BLOCKS: &[Row] = &[
    ("ok_continue_2_to_2", 0, || continues(2, 2).pages()),
    ("r10_continue_0_to_1", 10, || continues(0, 1).pages()),
    ("r10_continue_1_to_0", 10, || continues(1, 0).pages()),
    ("r10_continue_2_to_1", 10, || continues(2, 1).pages()),
    // A count kept in a byte would take 256 for 0.
    ("r10_continue_256_to_0", 10, || continues(256, 0).pages()),
    ("r10_continue_unvisited", 10, || unvisited(continues(1, 0))),
    ("r10_block_on_to_itself", 10, || block_of(&[0, 1], &[1], Control::ContinuesTo(0)).pages()),
    ("ok_branch_1_to_1_and_1", 0, || branches(1, 1, Some(1)).pages()),
    ("r10_branch_non_zero_target", 10, || branches(1, 2, Some(1)).pages()),
    ("r10_branch_zero_target", 10, || branches(1, 1, Some(2)).pages()),
    ("r10_branch_both_targets", 10, || branches(1, 2, Some(2)).pages()),
    ("r10_branch_unvisited", 10, || unvisited(branches(1, 1, Some(0)))),
    ("ok_switch_1_to_all", 0, || switches(1, &[1, 1, 1], Some(1)).pages()),
    ("r10_switch_first_case", 10, || switches(1, &[0, 1, 1], Some(1)).pages()),
    ("r10_switch_middle_case", 10, || switches(1, &[1, 0, 1], Some(1)).pages()),
    ("r10_switch_last_case", 10, || switches(1, &[1, 1, 0], Some(1)).pages()),
    ("r10_switch_last_case_no_fallback", 10, || switches(1, &[1, 1, 2], None).pages()),
    ("r10_switch_fallback", 10, || switches(1, &[1, 1, 1], Some(0)).pages()),
    ("r10_switch_fallback_only", 10, || switches(1, &[], Some(0)).pages()),
    ("r10_switch_unvisited", 10, || unvisited(switches(1, &[1, 1, 0], Some(1)))),
    ("ok_switch_no_target_no_fallback_outputs", 0, || switches(3, &[], None).pages()),
    ("ok_target_outside_the_switch", 0, || {
        edited(switches(1, &[1, 0], None), |i| {
            i.blocks[0].control = Control::Switch { condition: 0, first: 0, count: 1, fallback: None }
        })
    }),
    // Kinds 0 and 1 have no successor, even where a block of 2 inputs follows.
    ("ok_outputs_and_no_successor", 0, || edited(continues(1, 2), |i| i.blocks[0].control = Control::LastOpTerminates)),
    ("r11_two_inputs", 11, || block_of(&[3, 3], &[], Control::LastOpTerminates).pages()),
    ("r11_first_and_last_of_three", 11, || block_of(&[3, 2, 3], &[], Control::LastOpTerminates).pages()),
    ("r11_local_0", 11, || block_of(&[0, 1, 0], &[], Control::InternalReturn).pages()),
    ("r11_local_511", 11, || block_of(&[511, 447, 0, 511], &[], Control::LastOpTerminates).pages()),
    ("ok_locals_apart_by_64", 0, || block_of(&[511, 447, 63, 127, 64, 0], &[], Control::LastOpTerminates).pages()),
    ("r11_unvisited", 11, || unvisited(block_of(&[3, 3], &[], Control::LastOpTerminates))),
    ("r11_with_matching_outputs", 11, || block_of(&[3, 3], &[3, 3], Control::ContinuesTo(0)).pages()),
    ("r11_across_page_end", 11, || {
        let mut inputs = locals(0, 200);
        inputs[199] = 0;
        block_of(&inputs, &[], Control::LastOpTerminates).pages()
    }),
    ("r11_513_inputs", 11, || {
        let mut inputs = locals(0, 512);
        inputs.push(300);
        block_of(&inputs, &[], Control::LastOpTerminates).pages()
    }),
    ("ok_blocks_share_their_inputs", 0, || {
        edited(continues(0, 0), |i| {
            let both = i.run(&[3, 2]);
            let twice = i.run(&[5, 5]);
            i.blocks[0].inputs = both;
            i.blocks[1].inputs = both;
            i.blocks[0].outputs = twice;
        })
    }),
];

/// Images that break several rules: the first in the sequence is given, wherever its rule is broken.
const SEVERAL: &[Row] = &[
    ("r01_and_all_after", 1, || breaks_from(1)),
    ("r02_and_all_after", 2, || breaks_from(2)),
    ("r03_and_all_after", 3, || breaks_from(3)),
    ("r04_and_all_after", 4, || breaks_from(4)),
    ("r05_and_all_after", 5, || breaks_from(5)),
    ("r06_and_all_after", 6, || breaks_from(6)),
    ("r07_and_all_after", 7, || breaks_from(7)),
    ("r08_and_all_after", 8, || breaks_from(8)),
    ("r09_and_all_after", 9, || breaks_from(9)),
    ("r10_and_11", 10, || breaks_from(10)),
    ("r01_last_byte_and_02_first_page", 1, || cut(renumber(two_pages().pages(), 0, 1), 1023)),
    ("r02_and_03_on_one_page", 2, || raw(small().pages(), 0, NUMBER_AT, 1)),
    ("r02_last_page_and_03_first_page", 2, || renumber(flip_check(two_pages().pages(), 0, 1), 1, 2)),
    ("r02_last_page_and_04", 2, || renumber(set(two_pages().pages(), 0, 2), 1, 2)),
    ("r02_last_page_and_06", 2, || renumber(one_more(small().pages()), 1, 0)),
    ("r03_last_page_and_04", 3, || flip_check(set(two_pages().pages(), 0, 2), 1, 1)),
    ("r03_last_page_and_06", 3, || flip_check(one_more(small().pages()), 1, 1)),
    ("r03_and_06_padding_bit", 3, || raw(small().pages(), 0, 126, 1)),
    ("r03_and_05_and_08", 3, || flip_check(header(1, 0), 0, 1)),
    ("r04_and_05_no_function", 4, || set(header(1, 0), 0, 0)),
    ("r04_and_06_a_page_too_many", 4, || one_more(header(0, 2))),
    ("r05_locals_and_06_padding", 5, || set(header(6, 513), 125, 1)),
    ("r05_targets_and_06_too_few_pages", 5, || header(5, 513)),
    ("r05_locals_and_07_and_08", 5, || {
        edited(kinds(), |i| {
            i.operations[0].code = 93;
            i.init = 2;
            i.locals = 513;
        })
    }),
    ("r06_last_padding_word_and_07_code", 6, || set(edited(kinds(), |i| i.operations[0].code = 93), 125, 1)),
    ("r06_too_few_pages_and_07_and_08", 6, || {
        let pages = edited(of_words(127), |i| {
            i.entries[0] = 1;
            i.operations[0].code = 93;
        });
        cut(pages, 512)
    }),
    ("r06_a_page_too_many_and_11", 6, || one_more(block_of(&[3, 3], &[], Control::LastOpTerminates).pages())),
    ("r07_last_operation_and_08_block_0", 7, || {
        edited(kinds(), |i| {
            i.operations[LOOSE_OPERATION].code = 93;
            i.blocks[0].inputs = Span::new(1, 0);
        })
    }),
    ("r07_last_extra_and_08_init", 7, || {
        edited(kinds(), |i| {
            i.operations[LOOSE_OPERATION].extras = [0, 1];
            i.init = 2;
        })
    }),
    ("r07_last_field_and_08_entry", 7, || set(field(LOOSE, 3, 1), kinds().entry_at(0), 6)),
    ("r07_last_operation_and_09_operation_0", 7, || {
        edited(kinds(), |i| {
            i.operations[LOOSE_OPERATION].extras = [0, 1];
            i.operations[0].outputs = Span::EMPTY;
        })
    }),
    ("r07_and_08_one_operation", 7, || extras(Code::InternalCall, [1, 1])),
    ("r07_and_08_one_block", 7, || set(field(CONTINUE, 3, 1), kinds().block_at(CONTINUE) + 7, 6)),
    ("r07_and_09_one_operation", 7, || {
        edited(operation_on(Code::Add, &[0], &[8]), |i| i.operations[0].extras = [1, 0])
    }),
    ("r07_and_10_and_11", 7, || loose(block_of(&[3, 3], &[], Control::ContinuesTo(0)), 93u32, &[], &[]).pages()),
    ("r08_last_target_and_09_operation_0", 8, || {
        edited(kinds(), |i| {
            i.targets[1] = 6;
            i.operations[0].outputs = Span::EMPTY;
        })
    }),
    ("r08_last_operand_and_09_operation_0", 8, || {
        edited(kinds(), |i| {
            i.operands[8] = 5;
            i.operations[0].outputs = Span::EMPTY;
        })
    }),
    ("r08_target_in_no_switch_and_10_block_0", 8, || edited(continues(1, 0), |i| i.targets = vec![2])),
    ("r08_operand_in_no_run_and_11_block_0", 8, || {
        edited(block_of(&[3, 3], &[], Control::LastOpTerminates), |i| i.operands.push(512))
    }),
    ("r08_and_09_one_operation", 8, || {
        edited(operation_on(Code::Add, &[0], &[8]), |i| i.operations[0].inputs = Span::new(2, 3))
    }),
    ("r08_and_11_same_operands", 8, || block_of(&[512, 512], &[], Control::LastOpTerminates).pages()),
    ("r08_and_09_and_10", 8, || {
        edited(continues(1, 0), |i| {
            i.operation(Code::Add, &[], &[]);
            i.main = Some(1);
        })
    }),
    ("r09_last_operation_and_10_block_0", 9, || loose(continues(1, 0), Code::Add, &[], &[]).pages()),
    ("r09_last_operation_and_11_block_0", 9, || {
        loose(block_of(&[3, 3], &[], Control::LastOpTerminates), Code::Add, &[], &[]).pages()
    }),
    ("r09_and_10_and_11", 9, || loose(block_of(&[3, 3], &[], Control::ContinuesTo(0)), Code::Stop, &[0], &[]).pages()),
    ("r10_last_block_and_11_block_0", 10, || {
        with_block(block_of(&[3, 3], &[], Control::LastOpTerminates), &[], &[1], Control::ContinuesTo(1)).pages()
    }),
    ("r10_and_11_over_one_edge", 10, || {
        with_block(block_of(&[], &[1], Control::ContinuesTo(1)), &[3, 3], &[], Control::LastOpTerminates).pages()
    }),
];

const TABLES: [&[Row]; 8] = [ACCEPTED, CARRIAGE, HEADER, FORMS, REFERENCES, OPERAND_COUNTS, BLOCKS, SEVERAL];

fn rows() -> impl Iterator<Item = &'static Row> {
    TABLES.into_iter().flatten()
}

/// One line for each image: name, space, number.
fn index() -> String {
    rows().map(|(name, number, _)| format!("{name} {number}\n")).collect()
}

fn write_all(folder: &Path) -> io::Result<()> {
    fs::create_dir_all(folder)?;
    for (name, _, image) in rows() {
        fs::write(folder.join(name), image())?;
    }
    fs::write(folder.join("index"), index())
}

fn main() -> io::Result<()> {
    let Some(folder) = env::args_os().nth(1) else {
        eprintln!("usage: refusal_images FOLDER");
        std::process::exit(2);
    };
    write_all(Path::new(&folder))
}

#[cfg(test)]
mod tests {
    use super::*;
    use sir_questions::Refusal;
    use std::collections::BTreeSet;

    #[test]
    fn names_say_the_number() {
        for (name, number, _) in rows() {
            assert!(name.bytes().all(|b| matches!(b, b'a'..=b'z' | b'0'..=b'9' | b'_')), "{name}");
            let prefix = if *number == 0 { "ok_".into() } else { format!("r{number:02}_") };
            assert!(name.starts_with(&prefix), "{name} {number}");
        }
    }

    #[test]
    fn names_and_images_differ() {
        let (mut names, mut images) = (BTreeSet::new(), BTreeSet::new());
        for (name, _, image) in rows() {
            assert!(names.insert(name), "{name}");
            assert!(images.insert(image()), "{name}");
        }
    }

    #[test]
    fn every_number_is_there() {
        let before_12 = Refusal::of_images().filter(|&refusal| refusal != Refusal::SHARED_BASE);
        for number in before_12.map(Refusal::number).chain([0]) {
            assert!(rows().any(|row| row.1 == number), "{number}");
        }
    }

    /// The files of the crate that tries them are those of the tables.
    #[test]
    fn files_are_current() {
        let crate_folder = Path::new(env!("CARGO_MANIFEST_DIR")).join("../../crates/refusals");
        let read = |file: &str| fs::read_to_string(crate_folder.join(file)).unwrap();
        assert_eq!(read("data/index"), index());
        assert_eq!(read("stdout"), index());
        assert!(read("args").lines().eq(rows().map(|row| row.0)));
        for (name, _, image) in rows() {
            assert!(fs::read(crate_folder.join("data").join(name)).unwrap() == image(), "{name}");
        }
        let files = fs::read_dir(crate_folder.join("data")).unwrap().count();
        assert_eq!(files, rows().count() + 1);
    }
}
