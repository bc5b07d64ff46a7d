//! Writes the images of the program `chart` and what it is to print for them, which the paper's reference draws, under the root
//! of the repository. From the folder `rust`:
//!
//! ```text
//! cargo run --release -p compare --bin chart_images -- ..
//! ```

use paper_reference::chart_text;
use sir_image::samples;
use std::path::Path;
use std::{env, fs, io};

fn main() -> io::Result<()> {
    let root = env::args().nth(1).expect("the root of the repository");
    let folder = Path::new(&root).join("crates/chart");
    let mut base_twice = samples::report();
    base_twice.operations[0] = base_twice.operations[1];
    let files: [(&str, Vec<u8>); 6] = [
        ("the_paper", samples::report().pages()),
        ("functions_loops_escapes", samples::several_functions().pages()),
        ("two_series", samples::two_series().pages()),
        ("no_allocation", samples::mutual_calls().pages()),
        ("a_base_twice", base_twice.pages()),
        ("empty", Vec::new()),
    ];
    fs::create_dir_all(folder.join("data"))?;
    for (name, image) in &files {
        fs::write(folder.join("data").join(name), image)?;
    }
    fs::write(folder.join("args"), files.iter().map(|(name, _)| format!("{name}\n")).collect::<String>())?;
    let printed = files.iter().map(|(name, image)| format!("{name}\n{}", chart_text(image)));
    fs::write(folder.join("stdout"), printed.collect::<String>())
}
