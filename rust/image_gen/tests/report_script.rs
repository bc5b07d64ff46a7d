//! The scripts `report` and `chart` in the root of the repository: what they say of their argument, and their status.

use sir_image::samples;
use std::fs::{self, File, Permissions};
use std::os::unix::fs::PermissionsExt;
use std::path::{Path, PathBuf};
use std::process::{Command, Output, Stdio};
use std::{env, fmt::Debug};

/// A script.
#[derive(Clone, Copy)]
struct Script {
    /// Its name, and that of its program and of what it prints.
    name: &'static str,
    /// What its program prints for an image.
    text: fn(&[u8]) -> String,
}

const SCRIPTS: [Script; 2] = [
    Script { name: "report", text: paper_reference::report },
    Script { name: "chart", text: paper_reference::chart_text },
];

fn root() -> PathBuf {
    Path::new(env!("CARGO_MANIFEST_DIR")).join("../..")
}

impl Script {
    /// The script, with an `rt` that proves nothing, so that no test waits for a proof.
    fn command(self, test: &str) -> Command {
        let folder = self.folder(test);
        fs::write(folder.join("rt"), "#!/bin/sh\nexit 1\n").unwrap();
        fs::set_permissions(folder.join("rt"), Permissions::from_mode(0o755)).unwrap();
        let mut command = Command::new(root().join(self.name));
        command.env("PATH", format!("{}:{}", folder.display(), env::var("PATH").unwrap())).stdin(Stdio::null());
        command
    }

    /// A folder of a test of this script alone.
    fn folder(self, test: &str) -> PathBuf {
        let folder = Path::new(env!("CARGO_TARGET_TMPDIR")).join(format!("{}_{test}", self.name));
        fs::create_dir_all(&folder).unwrap();
        folder
    }

    /// Status 2 and one line on standard error; nothing is proved, nothing printed.
    fn assert_turned_away(self, words: &[&str], message: &str) {
        let output = self.command("turned_away").args(words).output().unwrap();
        assert_eq!(shown(&output), (Some(2), String::new(), format!("{}: {message}\n", self.name)), "{words:?}");
    }

    /// Whether the program is built, and newer than what it is made of.
    fn is_built(self) -> bool {
        let output = self.command("is_built").output().unwrap();
        let program = root().join("crates").join(self.name).join("out").join(self.name);
        let built = program.exists() && output.status.success();
        if !built {
            println!("crates/{0}/out/{0} is not built, or out of date: nothing was printed", self.name);
        }
        built
    }
}

fn shown(output: &Output) -> (Option<i32>, String, String) {
    let text = |bytes: &[u8]| String::from_utf8(bytes.to_vec()).unwrap();
    (output.status.code(), text(&output.stdout), text(&output.stderr))
}

#[test]
fn arguments() {
    for script in SCRIPTS {
        let help = format!("see ./{} --help", script.name);
        script.assert_turned_away(&["no/such/file"], "there is no file 'no/such/file'");
        script.assert_turned_away(&["/"], "'/' is a directory");
        script.assert_turned_away(&["--halp"], &format!("no option --halp; {help}"));
        script.assert_turned_away(&["one", "two"], &format!("one image at a time; {help}"));
    }
}

#[test]
fn help() {
    for script in SCRIPTS {
        let (status, text, errors) = shown(&script.command("help").arg("--help").output().unwrap());
        assert_eq!((status, errors.as_str()), (Some(0), ""));
        assert!(text.starts_with(&format!("usage: ./{} [FILE]\n", script.name)), "{text}");
        assert!(text.contains(&format!("Status: 0 the {} was printed\n", script.name)), "{text}");
    }
}

fn assert_prints<T: Debug>(what: T, output: Output, status: i32, text: &str) {
    assert_eq!(shown(&output), (Some(status), text.to_string(), String::new()), "{what:?}");
}

/// A file, standard input, and neither; an image that is refused.
#[test]
fn printed() {
    for script in SCRIPTS.into_iter().filter(|script| script.is_built()) {
        let image = samples::report().pages();
        let text = (script.text)(&image);
        let path = script.folder("printed").join("an image.img");
        fs::write(&path, &image).unwrap();
        let command = || script.command("printed");
        assert_prints("no file", command().output().unwrap(), 0, &text);
        assert_prints("a file", command().arg(&path).output().unwrap(), 0, &text);
        let input = || Stdio::from(File::open(&path).unwrap());
        assert_prints("-", command().arg("-").stdin(input()).output().unwrap(), 0, &text);
        fs::write(&path, &image[..511]).unwrap();
        assert_prints("a short file", command().arg(&path).output().unwrap(), 1, "refused 1\n");
    }
}

#[test]
fn output_that_cannot_be_written() {
    let Ok(full) = File::options().write(true).open("/dev/full") else { return };
    for script in SCRIPTS.into_iter().filter(|script| script.is_built()) {
        let output = script.command("full").stdout(full.try_clone().unwrap()).output().unwrap();
        assert_eq!(output.status.code(), Some(2));
        let message = format!("{0}: the {0} cannot be written\n", script.name);
        assert!(shown(&output).2.ends_with(&message));
    }
}
