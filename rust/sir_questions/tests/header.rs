//! The C header says what the tables say.

use sir_questions::{MarkCause, Question, Refusal, WRITE, function_names};
use std::fs;
use std::path::Path;

fn header() -> String {
    fs::read_to_string(Path::new(env!("CARGO_MANIFEST_DIR")).join("../../include/sir_analyses.h")).unwrap()
}

/// The header names and explains the refusals as the table does, in the sequence in which they are asked.
#[test]
fn refusals() {
    let lines = Refusal::ALL.iter().map(|refusal| {
        let name = refusal.name().expect("a refusal of the table");
        format!("    /* {} */\n    SIR_REFUSED_{name} = {},\n", refusal.text(), refusal.number())
    });
    let lines: String = lines.collect();
    assert!(header().contains(&lines), "the header wants, with nothing between them:\n{lines}");
    assert_eq!(header().matches("SIR_REFUSED_").count(), Refusal::ALL.len());
}

/// The header names and explains what marks an allocation as the table does, by the flags.
#[test]
fn causes_of_marks() {
    let line = |cause: &MarkCause| {
        format!("    /* {} */\n    SIR_MARKED_BY_{} = {},\n", cause.text(), cause.name(), cause.flag())
    };
    let lines: String = MarkCause::ALL.iter().map(line).collect();
    assert!(header().contains(&lines), "the header wants, with nothing between them:\n{lines}");
    assert_eq!(header().matches("SIR_MARKED_BY_").count(), MarkCause::ALL.len());
}

/// The parameters of the function of this name.
fn parameters(header: &str, name: &str) -> String {
    let begin = format!("\nsir_answer sir_{name}(");
    let (_, rest) = header.split_once(&begin).unwrap_or_else(|| panic!("the header has no sir_{name}"));
    let (parameters, _) = rest.split_once(");").expect("the declaration ends");
    parameters.split_whitespace().collect::<Vec<_>>().join(" ")
}

/// Each question is declared, and takes an image and as many ids.
#[test]
fn questions() {
    let header = header();
    for kind in Question::KINDS {
        let parameters = parameters(&header, kind.name);
        assert!(parameters.starts_with("const uint8_t *image, size_t image_length, "), "{}", kind.name);
        assert_eq!(parameters.matches("uint32_t ").count(), kind.ids.len(), "{}", kind.name);
    }
}

/// The header says which answers are text.
#[test]
fn text() {
    let text =
        Question::KINDS.iter().filter(|kind| kind.is_text()).map(|kind| format!("that of sir_{} as text", kind.name));
    let header = header();
    assert!(text.into_iter().all(|text| header.contains(&text)));
    assert_eq!(header.matches(" as text").count(), 1);
}

/// The writer takes lent records, and there is no other function.
#[test]
fn writer() {
    let header = header();
    let expected = "const uint8_t *records, size_t records_length, uint8_t *result, size_t result_length";
    assert_eq!(parameters(&header, WRITE.name), expected);
    assert_eq!(header.matches("\nsir_answer sir_").count(), function_names().count());
}
