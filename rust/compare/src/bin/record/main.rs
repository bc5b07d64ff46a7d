//! Writes files that `crates/replay` replays: images, questions about them and their answers. From the folder `rust`:
//!
//! ```text
//! cargo run --release -p compare --bin record
//! cargo run --release -p compare --bin record -- FILE IMAGE QUESTION...
//! ```
//!
//! The first replaces what is in `crates/replay/data`, with `args` and `stdout`; `data/README` says how the files are made.
//! The answers are Plank's, its arms for `Log1` to `Log4` altered so that topics escape; the rounds, the flags of allocations,
//! the open ones, the crossings, the records and the charts, which Plank does not report, what is written of lent records, and
//! all refusals are the paper's reference's. The library has no part in this.
//!
//! The second writes one file, with the reference's answers to the questions about one image, and prints them. A question
//! is its name, after a colon its ids separated by commas, and after a slash the length of the result slice where it is not
//! to be that of the answer: `order`, `exit_set:3`, `uses:4/0`, `open:0,2`, `all_uses`, `chart`. For `write` the file IMAGE
//! holds records.

mod one;
mod stored;

use std::process::ExitCode;

fn main() -> ExitCode {
    let words: Vec<String> = std::env::args().skip(1).collect();
    let done = match words.as_slice() {
        [] if !plank_oracle::PRESENT => {
            Err("Plank's files were missing when this was built (set PLANK_SRC)".to_string())
        }
        [] => stored::write().map_err(|error| error.to_string()),
        [file, image, questions @ ..] if !questions.is_empty() => one::write(file, image, questions),
        _ => Err("usage: record [FILE IMAGE QUESTION...]".to_string()),
    };
    match done {
        Ok(()) => ExitCode::SUCCESS,
        Err(message) => {
            eprintln!("record: {message}");
            ExitCode::from(2)
        }
    }
}
