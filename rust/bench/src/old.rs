//! An older library beside the present one, both loaded alike and timed in the same run.
#![allow(unsafe_code)]

use crate::timing::{EVERY, Group, RESULT_BYTES, TOGETHER, Timed, best_of_each, is_in_every, row, together};
use sir_analyses::Answer;
use sir_questions::{Question, QuestionKind, WRITE};
use std::ffi::{CString, c_char, c_int, c_void};
use std::hint::black_box;
use std::mem::transmute;
use std::path::Path;
use std::process::Command;
use std::time::Duration;

unsafe extern "C" {
    fn dlopen(file: *const c_char, mode: c_int) -> *mut c_void;
    fn dlsym(library: *mut c_void, name: *const c_char) -> *mut c_void;
}

/// glibc's `RTLD_NOW`; the names of several libraries stay apart.
const NOW: c_int = 2;

/// A library that was loaded from an archive. It stays loaded.
struct Library(*mut c_void);

/// A function of such a library.
#[derive(Clone, Copy)]
struct Function(*mut c_void);

impl Library {
    /// Makes a shared object of an archive, with the C compiler, and loads it.
    fn load(name: &str, archive: &str) -> Result<Library, String> {
        let object = std::env::temp_dir().join(format!("sir_{name}_{}.so", std::process::id()));
        let compiler = std::env::var("CC").unwrap_or("cc".to_string());
        let made = Command::new(&compiler)
            .args(["-shared", "-Wl,-Bsymbolic", "-o"])
            .arg(&object)
            .args(["-Wl,--whole-archive", archive, "-Wl,--no-whole-archive"])
            .status();
        if !made.map_err(|error| format!("{compiler}: {error}"))?.success() {
            return Err(format!("{compiler} makes no shared object of {archive}"));
        }
        let library = Library::open(&object);
        let _ = std::fs::remove_file(&object);
        library
    }

    fn open(object: &Path) -> Result<Library, String> {
        let name = CString::new(object.as_os_str().as_encoded_bytes()).map_err(|error| error.to_string())?;
        // Safety: the object was made of one of this project's archives, which run nothing when they are loaded.
        let library = unsafe { dlopen(name.as_ptr(), NOW) };
        if library.is_null() { Err(format!("{} cannot be loaded", object.display())) } else { Ok(Library(library)) }
    }

    /// The function of this name, where the library has one.
    fn function(&self, name: &str) -> Option<Function> {
        let name = CString::new(format!("sir_{name}")).expect("a name");
        // Safety: the library is loaded.
        let function = unsafe { dlsym(self.0, name.as_ptr()) };
        (!function.is_null()).then_some(Function(function))
    }
}

type Ids0 = unsafe extern "C" fn(*const u8, usize, *mut u8, usize) -> Answer;
type Ids1 = unsafe extern "C" fn(*const u8, usize, u32, *mut u8, usize) -> Answer;
type Ids2 = unsafe extern "C" fn(*const u8, usize, u32, u32, *mut u8, usize) -> Answer;
type Ids3 = unsafe extern "C" fn(*const u8, usize, u32, u32, u32, *mut u8, usize) -> Answer;

impl Function {
    /// Calls it with an image, or with lent records, and these ids. They must be as many as it takes in the library that it is
    /// of.
    fn call(self, lent: &[u8], ids: &[u32], result: &mut [u8]) -> Answer {
        let (at, length, out, room) = (lent.as_ptr(), lent.len(), result.as_mut_ptr(), result.len());
        // Safety: a function takes an image or records, its ids and a result slice, both slices lent for the call.
        unsafe {
            match *ids {
                [] => transmute::<*mut c_void, Ids0>(self.0)(at, length, out, room),
                [a] => transmute::<*mut c_void, Ids1>(self.0)(at, length, a, out, room),
                [a, b] => transmute::<*mut c_void, Ids2>(self.0)(at, length, a, b, out, room),
                [a, b, c] => transmute::<*mut c_void, Ids3>(self.0)(at, length, a, b, c, out, room),
                _ => panic!("no question has so many ids"),
            }
        }
    }
}

/// The present library and an older one.
pub struct Libraries {
    new: Library,
    old: Library,
}

impl Libraries {
    /// The libraries of these archives.
    pub fn load(new: &str, old: &str) -> Result<Libraries, String> {
        Ok(Libraries { new: Library::load("new", new)?, old: Library::load("old", old)? })
    }

    /// The function of this name of each library, where both have one.
    fn functions(&self, name: &str) -> Option<[Function; 2]> {
        Some([self.new.function(name)?, self.old.function(name)?])
    }

    /// Times a group by both and prints a row for each question that both answer.
    pub fn table(&self, group: &Group) {
        group.print_head("new", "old");
        let mut results = [vec![0; RESULT_BYTES], vec![0; RESULT_BYTES]];
        let images: Vec<Timed> = group.images.iter().map(Timed::new).collect();
        let mut every = [Duration::ZERO; 2];
        for kind in Question::KINDS {
            let Some(functions) = self.functions(kind.name) else {
                not_in_both(kind.name);
                continue;
            };
            let mut sums = [Duration::ZERO; 2];
            let asked: Vec<&Timed> = images.iter().filter(|image| !image.sample(kind).is_empty()).collect();
            for image in &asked {
                let times = mean_times(image, kind, functions, &mut results);
                for side in 0..2 {
                    sums[side] += times[side];
                    every[side] += if is_in_every(kind) { times[side] * image.count(kind) } else { Duration::ZERO };
                }
            }
            row(kind.name, asked.len() as u32, Some(sums[0]), Some(sums[1]));
        }
        let writer = self.functions(WRITE.name).map(|functions| vec![functions]);
        row_of_calls(WRITE.name, &images, |image| &image.records, writer, &mut results);
        row(EVERY, images.len() as u32, Some(every[0]), Some(every[1]));
        let functions = together().map(|kind| self.functions(kind.name)).collect();
        row_of_calls(TOGETHER, &images, |image| &image.bytes, functions, &mut results);
    }
}

fn not_in_both(name: &str) {
    println!("{name:36} not in both");
}

/// Prints a row of the times of both libraries for calls without ids, all of them of what is lent of an image, where both have
/// the functions.
fn row_of_calls(
    name: &str,
    images: &[Timed],
    lent: impl Fn(&Timed) -> &Vec<u8>,
    functions: Option<Vec<[Function; 2]>>,
    [first, second]: &mut [Vec<u8>; 2],
) {
    let Some(functions) = functions else { return not_in_both(name) };
    let mut sums = [Duration::ZERO; 2];
    for image in images {
        let (new, old) = best_of_each(
            || functions.iter().for_each(|[new, _]| _ = black_box(new.call(lent(image), &[], first))),
            || functions.iter().for_each(|[_, old]| _ = black_box(old.call(lent(image), &[], second))),
        );
        sums = [sums[0] + new, sums[1] + old];
    }
    row(name, images.len() as u32, Some(sums[0]), Some(sums[1]));
}

/// The mean times of both libraries over some questions of a kind, of which the image has some.
fn mean_times(
    image: &Timed,
    kind: &QuestionKind,
    [new, old]: [Function; 2],
    [first, second]: &mut [Vec<u8>; 2],
) -> [Duration; 2] {
    let mut sums = [Duration::ZERO; 2];
    let questions = image.sample(kind);
    for &question in &questions {
        let ids = question.ids();
        let (new, old) = best_of_each(
            || _ = black_box(new.call(&image.bytes, &ids, first)),
            || _ = black_box(old.call(&image.bytes, &ids, second)),
        );
        sums[0] += new;
        sums[1] += old;
    }
    sums.map(|sum| sum / questions.len() as u32)
}
