//! Writes the images of `report` and `reports`, and examples, under the root of the repository. From the folder `rust`:
//!
//! ```text
//! cargo run -p image_gen --bin report_images -- ..
//! ```

use image_gen::{Kind, generate};
use sir_image::{Code, Control, Image, samples};
use std::path::Path;
use std::{env, fs, io};

/// Every block has all operations: the intervals of local 0 need more than 65,536 bytes.
fn long_intervals() -> Image {
    let mut image = Image::new(2);
    for _ in 0..128 {
        image.operation(Code::SetSmallConst, &[], &[0]);
        image.operation(Code::SetCopy, &[0], &[1]);
    }
    let all = image.operations_from(0);
    for block in 0..64 {
        image.block(&[], &[], all, Control::ContinuesTo((block + 1) % 64));
    }
    image.function(0);
    image
}

fn main() -> io::Result<()> {
    let root = env::args().nth(1).expect("the root of the repository");
    let write = |path: &str, bytes: &[u8]| {
        let path = Path::new(&root).join(path);
        fs::create_dir_all(path.parent().unwrap())?;
        fs::write(path, bytes)
    };
    let noise: Vec<u8> = (0..1536u32).map(|i| (i.wrapping_mul(2_654_435_761) >> 13) as u8).collect();
    let mut base_twice = samples::report();
    base_twice.operations[0] = base_twice.operations[1];
    let files: [(&str, Vec<u8>); 8] = [
        ("the_paper", samples::report().pages()),
        ("functions_loops_escapes", samples::several_functions().pages()),
        ("large", generate(Kind::TypicalLives, 4).pages()),
        ("a_base_twice", base_twice.pages()),
        ("answer_too_long", long_intervals().pages()),
        ("empty", Vec::new()),
        ("noise", noise),
        ("longer_than_any_image", vec![0; 70_000]),
    ];
    let mut args = String::new();
    for (name, bytes) in &files {
        write(&format!("crates/reports/data/{name}"), bytes)?;
        args += &format!("{name}\n");
    }
    write("crates/reports/args", args.as_bytes())?;
    write("crates/report/stdin", &samples::report().pages())?;
    write("examples/paper.img", &samples::report().pages())?;
    write("examples/functions.img", &samples::several_functions().pages())?;
    write("examples/typical.img", &generate(Kind::Typical, 1).pages())?;
    write("examples/large.img", &generate(Kind::FullLives, 1).pages())
}
