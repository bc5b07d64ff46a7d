//! Prints the report of the image in a file.

fn main() {
    let path = std::env::args().nth(1).expect("a file");
    print!("{}", paper_reference::report(&std::fs::read(path).expect("a readable file")));
}
