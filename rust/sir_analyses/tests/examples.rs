//! The examples, in Rust and in C, give what they say.
#![cfg(sir_linked)]

use sir_analyses::{AllocId, Size};
use sir_image::{Code, Control, Image, samples};
use std::path::{Path, PathBuf};
use std::process::Command;
use std::{env, fs};

#[path = "../examples/ask.rs"]
#[allow(dead_code, unreachable_pub)]
mod ask;

#[test]
fn from_rust() {
    let all = sir_analyses::all_allocations(&ask::program()).unwrap();
    assert_eq!(all.iter().map(|allocation| allocation.marked).collect::<Vec<_>>(), [false, false, true]);
    assert_eq!(ask::pairs(&ask::program()), Ok(vec![(0, 1)]));
    assert!(all.iter().map(ask::why).eq([None, None, Some("an escaping operand".to_string())]));
}

/// Each sum of flags in words.
#[test]
fn why_it_is_marked() {
    let all = sir_analyses::all_allocations(&samples::every_flag().pages()).unwrap();
    let why: Vec<String> = all.iter().map(|allocation| ask::why(allocation).unwrap_or_default()).collect();
    let expected = [
        "",
        "an escaping operand",
        "a return",
        "an escaping operand and a return",
        "a meeting",
        "an escaping operand and a meeting",
        "a return and a meeting",
        "an escaping operand and a return and a meeting",
    ];
    assert_eq!(why, expected);
}

/// One size is another, and nothing else: back to the old one is back to the old image.
#[test]
fn another_size() {
    let image = ask::program();
    let larger = ask::resized(&image, AllocId(0), 96).unwrap();
    let mut all = sir_analyses::all_allocations(&image).unwrap();
    all[0].size = Size::Static { size: 96, id: 0 };
    assert_eq!(sir_analyses::all_allocations(&larger), Ok(all));
    assert_eq!(ask::resized(&larger, AllocId(0), 64), Ok(image));
}

/// A function whose buffer lives across a call, and one whose buffer is in use during the call. No walk has both, so their
/// intervals do not meet; they are not offered as a pair that may share its memory.
#[test]
fn caller_and_callee() {
    let mut image = Image::new(4);
    image.operation_with(Code::StaticAllocZeroed, &[], &[0], [64, 0]);
    image.operation_with(Code::InternalCall, &[], &[], [1, 0]);
    image.operation(Code::MemoryLoad, &[0], &[1]);
    image.operation(Code::Stop, &[], &[]);
    image.block(&[], &[], image.operations_from(0), Control::LastOpTerminates);
    let callee = image.operation_with(Code::StaticAllocZeroed, &[], &[2], [64, 1]);
    image.operation(Code::MemoryLoad, &[2], &[3]);
    image.block(&[], &[], image.operations_from(callee), Control::InternalReturn);
    image.function(0);
    image.function(1);
    let image = image.pages();
    let all = sir_analyses::all_allocations(&image).unwrap();
    assert_eq!(
        all.iter().map(|allocation| (allocation.marked, allocation.block.0)).collect::<Vec<_>>(),
        [(false, 0), (false, 1)]
    );
    assert_eq!(ask::pairs(&image), Ok(vec![]));
}

/// A buffer that is never read still has its bytes cleared where it is made.
#[test]
fn an_unread_buffer() {
    let mut image = Image::new(3);
    image.operation_with(Code::StaticAllocZeroed, &[], &[0], [64, 0]);
    image.operation_with(Code::StaticAllocZeroed, &[], &[1], [64, 1]);
    image.operation(Code::MemoryLoad, &[0], &[2]);
    image.block(&[], &[], image.operations_from(0), Control::LastOpTerminates);
    image.function(0);
    let image = image.pages();
    assert!(sir_analyses::all_allocations(&image).unwrap()[1].intervals.is_empty());
    assert_eq!(ask::pairs(&image), Ok(vec![]));
}

/// Compiles `examples/call.c` where a C compiler is at hand, and runs it on accepted images and on a refused one.
#[test]
fn from_c() {
    let compiler = env::var("CC").unwrap_or("cc".to_string());
    if Command::new(&compiler).arg("--version").output().is_err() {
        println!("no C compiler {compiler}: examples/call.c is not run");
        return;
    }
    let repository = Path::new(env!("CARGO_MANIFEST_DIR")).join("../..");
    let folder = PathBuf::from(env!("CARGO_TARGET_TMPDIR"));
    let program = folder.join("call");
    let compiled = Command::new(compiler)
        .current_dir(&repository)
        .args(["-std=c99", "-Wall", "-Wextra", "-Werror", "-Iinclude", "examples/call.c"])
        .arg(sir_analyses::LIBRARY.unwrap())
        .arg("-o")
        .arg(&program)
        .status();
    assert!(compiled.unwrap().success());
    let image = folder.join("report.image");
    let lines = |bytes: &[u8]| {
        fs::write(&image, bytes).unwrap();
        String::from_utf8(Command::new(&program).arg(&image).output().unwrap().stdout).unwrap()
    };
    let pages = samples::report().pages();
    assert_eq!(lines(&pages), "a0 b0 op1 v1 kept b0 1..end b1 start..3\n");
    assert_eq!(
        lines(&samples::through_a_base().pages()),
        "a0 b0 op0 v0 escaped: a meeting\na1 b0 op1 v1 escaped: an escaping operand, a meeting\n"
    );
    assert_eq!(lines(&pages[..511]), "refused 1\n");
}
