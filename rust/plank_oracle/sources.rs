//! Build script of the crates that hold Plank's files.
//!
//! The files stay where they are, in the folder that the environment variable `PLANK_SRC` names, or in [`DEFAULT_FOLDER`].
//! In cargo's build folder a tree of links to them is made, completed by the shims for modules that are not among them,
//! since a source that says `mod idx_slice;` looks for that file next to itself. One file stands there a second time, as a
//! copy in which some text is replaced; the build fails where that text is not found. The crate then includes `modules.rs`
//! of that tree (or the source's own `lib.rs`). Where the folder is missing nothing is made, the cfg `plank_sources` stays
//! off, and the crate is empty.

use std::path::{Path, PathBuf};
use std::{env, fs, io};

/// Where Plank's files are looked for without `PLANK_SRC`. Like a relative `PLANK_SRC`, from the root of the repository.
const DEFAULT_FOLDER: &str = "../shared/docs/src";

/// What one crate takes from the folder.
struct Tree {
    /// The crate.
    package: &'static str,
    /// The folder of its files.
    folder: &'static str,
    /// The files, all of them unchanged.
    files: &'static [&'static str],
    /// The one of them that also stands in the module `altered`; a text that it has once, and what stands for it there.
    altered: Option<(&'static str, &'static str, &'static str)>,
    /// Files of the crate's own folder `shims`, and where they stand among the others.
    shims: &'static [(&'static str, &'static str)],
}

const TREES: &[Tree] = &[
    Tree {
        package: "plank_core",
        folder: "plankc/crates/plank-core/src",
        files: &[
            "dense_index_map.rs",
            "dense_index_set.rs",
            "index.rs",
            "index_vec/mod.rs",
            "list_of_lists.rs",
            "span.rs",
        ],
        altered: None,
        shims: &[("idx_slice.rs", "index_vec/idx_slice.rs")],
    },
    Tree {
        package: "sir_data",
        folder: "plankc/sir/crates/data/src",
        files: &["lib.rs", "view.rs"],
        altered: None,
        shims: &[("builder.rs", "builder.rs"), ("index.rs", "index.rs"), ("operation.rs", "operation.rs")],
    },
    Tree {
        package: "sir_passes",
        folder: "plankc/sir/crates/passes/src/analyses",
        files: &[
            "allocation_liveness.rs",
            "def_use.rs",
            "local_liveness.rs",
            "predecessors.rs",
            "reverse_post_order.rs",
        ],
        altered: Some(("allocation_liveness.rs", LOGS, LOGS_WITH_TOPICS)),
        shims: &[],
    },
];

/// The arms of `operation_causes_ptr_escape` for logs, which let no input escape.
const LOGS: &str = "
        | Operation::Log0(_)
        | Operation::Log1(_)
        | Operation::Log2(_)
        | Operation::Log3(_)
        | Operation::Log4(_)
        | Operation::Return(_)
";

/// The same with topics escaping (request R-2): the inputs of `Log1` to `Log4` from position 2 up.
const LOGS_WITH_TOPICS: &str = "
        | Operation::Log0(_) => false,
        Operation::Log1(_) | Operation::Log2(_) | Operation::Log3(_) | Operation::Log4(_) => {
            op.inputs(program)[2..].contains(&local)
        }
        Operation::Return(_)
";

fn main() -> io::Result<()> {
    println!("cargo::rustc-check-cfg=cfg(plank_sources)");
    println!("cargo::rerun-if-env-changed=PLANK_SRC");
    let package = PathBuf::from(variable("CARGO_MANIFEST_DIR"));
    let repository = package.ancestors().find(|folder| folder.ends_with("rust")).and_then(Path::parent);
    let repository = repository.expect("the crate stands in the folder rust of the repository");
    let folder = env::var_os("PLANK_SRC").unwrap_or_else(|| DEFAULT_FOLDER.into());
    let sources = repository.join(folder);

    let name = variable("CARGO_PKG_NAME");
    let all = TREES.iter().flat_map(|tree| tree.files.iter().map(|file| sources.join(tree.folder).join(file)));
    if let Some(missing) = all.clone().find(|file| !file.is_file()) {
        println!("cargo::rerun-if-changed={}", missing.display());
        if name == "plank_oracle" {
            println!("cargo::warning=no file {} (set PLANK_SRC): no comparison with Plank", missing.display());
        }
        return Ok(());
    }
    all.for_each(|file| println!("cargo::rerun-if-changed={}", file.display()));
    println!("cargo::rustc-cfg=plank_sources");
    println!("cargo::rustc-env=PLANK_SOURCES={}", sources.display());

    let Some(tree) = TREES.iter().find(|tree| tree.package == name) else { return Ok(()) };
    let mirror = PathBuf::from(variable("OUT_DIR")).join("src");
    if mirror.exists() {
        fs::remove_dir_all(&mirror)?;
    }
    let mut modules = String::new();
    for file in tree.files {
        link(&sources.join(tree.folder).join(file), &mirror.join(file))?;
        modules += &format!("pub mod {};\n", module(file));
    }
    if let Some((file, text, replacement)) = tree.altered {
        alter(&sources.join(tree.folder).join(file), &mirror.join("altered").join(file), text, replacement)?;
        modules += &format!("pub mod altered {{\n    pub mod {};\n}}\n", module(file));
    }
    for (shim, file) in tree.shims {
        let shim = package.join("shims").join(shim);
        println!("cargo::rerun-if-changed={}", shim.display());
        link(&shim, &mirror.join(file))?;
    }
    fs::write(mirror.join("modules.rs"), modules)
}

fn variable(name: &str) -> String {
    env::var(name).expect("cargo sets it")
}

/// The module that a file is.
fn module(file: &str) -> &str {
    file.trim_end_matches(".rs").trim_end_matches("/mod")
}

/// Writes a copy of a file in which a text is replaced.
///
/// # Panics
///
/// Panics where the file does not have the text just once.
fn alter(from: &Path, to: &Path, text: &str, replacement: &str) -> io::Result<()> {
    let source = fs::read_to_string(from)?;
    let found = source.matches(text).count();
    assert!(found == 1, "{}: a text that is to be altered is there {found} times, not once:{text}", from.display());
    fs::create_dir_all(to.parent().expect("a file stands in a folder"))?;
    fs::write(to, source.replacen(text, replacement, 1))
}

fn link(from: &Path, to: &Path) -> io::Result<()> {
    fs::create_dir_all(to.parent().expect("a file stands in a folder"))?;
    std::os::unix::fs::symlink(fs::canonicalize(from)?, to)
}
