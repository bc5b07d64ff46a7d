//! One file about one image, for questions that are chosen, or of lent records.

use compare::recording::{Called, Recorded, Recording};
use paper_reference::Reference;
use sir_questions::{Question, Unknown, WRITE};
use std::fs;
use std::path::Path;

/// Writes the reference's answers to a file, and prints them.
pub fn write(file: &str, image: &str, questions: &[String]) -> Result<(), String> {
    let bytes = fs::read(image).map_err(|error| format!("{image}: {error}"))?;
    let calls = questions.iter().map(|text| call(text, &bytes)).collect::<Result<Vec<_>, _>>()?;
    for (text, call) in questions.iter().zip(&calls) {
        println!("{text} gives {} and {} bytes{}", call.number, call.length, shown(call));
    }
    let name = Path::new(file).file_name().unwrap_or_default().to_string_lossy().into_owned();
    let recording = Recording { name, lent: bytes, calls };
    fs::write(file, recording.bytes()).map_err(|error| format!("{file}: {error}"))
}

/// The call that a text states: a question or the writer, and after a slash the length of the result slice.
fn call(text: &str, lent: &[u8]) -> Result<Recorded, String> {
    let (name, room) = match text.split_once('/') {
        Some((name, room)) => (name, Some(room.parse().map_err(|_| format!("{room} is no length"))?)),
        None => (text, None),
    };
    let (called, answer) = if name == WRITE.name {
        (Called::Write, paper_reference::write(lent))
    } else {
        let question: Question = name.parse().map_err(|unknown: Unknown| unknown.to_string())?;
        (question.into(), Reference::new(lent).and_then(|reference| reference.bytes(question)))
    };
    let room = room.unwrap_or(answer.map_or(0, |bytes| bytes.len()));
    Ok(Recorded::by_reference(called, lent, room))
}

/// The answer after a colon: text as it is, on lines of its own, and all others in hexadecimal.
fn shown(call: &Recorded) -> String {
    let bytes = &call.result[..call.length];
    let answer: String = match call.called {
        Called::Question(question) if question.kind().is_text() => {
            format!("\n{}", String::from_utf8_lossy(bytes).trim_end())
        }
        _ => bytes.iter().map(|byte| format!(" {byte:02x}")).collect(),
    };
    if bytes.is_empty() { String::new() } else { format!(":{answer}") }
}

#[cfg(test)]
mod tests {
    use super::*;

    #[test]
    fn calls() {
        let image = sir_image::samples::report().pages();
        let given = |text: &str| call(text, &image).map(|call| (call.number, call.length, call.result.len()));
        assert_eq!(given("order"), Ok((0, 16, 16)));
        assert_eq!(given("order/20"), Ok((0, 16, 20)));
        assert_eq!(given("order/15"), Ok((14, 0, 15)));
        assert_eq!(given("uses:4/7"), Ok((13, 0, 7)));
        assert_eq!(call("exit_set:0", &image).map(|call| call.result), Ok(vec![1, 0, 0, 0]));
        assert!(given("exit_set").is_err() && given("order/x").is_err());
        assert_eq!((given("chart"), given("chart/4379")), (Ok((0, 4380, 4380)), Ok((14, 0, 4379))));
    }

    #[test]
    fn answers_shown() {
        let image = sir_image::samples::report().pages();
        let shown = |text: &str| shown(&call(text, &image).unwrap());
        assert_eq!([shown("exit_set:0"), shown("exit_set:1"), shown("order/0")], [": 01 00 00 00", "", ""]);
        let chart = shown("chart");
        assert!(chart.starts_with(":\nblock 0 ") && chart.ends_with(".|") && chart.lines().count() == 8, "{chart}");
    }

    #[test]
    fn writer() {
        let records = call("records", &sir_image::samples::report().pages()).unwrap().result;
        let given = |text: &str| call(text, &records).map(|call| (call.number, call.length, call.result.len()));
        assert_eq!(given("write"), Ok((0, 512, 512)));
        assert_eq!(given("write/511"), Ok((14, 0, 511)));
        assert_eq!(call("write", &records[4..]).map(|call| call.number), Ok(6));
    }
}
