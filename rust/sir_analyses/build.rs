//! Links the proved library where it has been built: `libsir_capi.a` in the folder `SIR_ANALYSES_LIB`, absolute or from the
//! root of the repository, or in `target/staticlib`, where `tools/staticlib` puts it. The cfg `sir_linked` says that
//! it is there, and `SIR_LIBRARY` tells where. A folder that is named and has no such library is an error, and so is a library
//! that lacks a function.

use sir_questions::function_names;
use std::path::PathBuf;
use std::{env, fs};

fn main() {
    println!("cargo::rustc-check-cfg=cfg(sir_linked)");
    println!("cargo::rerun-if-env-changed=SIR_ANALYSES_LIB");
    let package = PathBuf::from(env::var_os("CARGO_MANIFEST_DIR").expect("cargo sets it"));
    let repository = package.ancestors().nth(2).expect("the crate stands in the folder rust of the repository");
    let named = env::var_os("SIR_ANALYSES_LIB");
    let folder = repository.join(named.clone().unwrap_or_else(|| "target/staticlib".into()));
    let library = folder.join("libsir_capi.a");
    let read = fs::read(&library);
    let library = library.display();
    println!("cargo::rerun-if-changed={library}");
    match read {
        Ok(bytes) => match function_names().find(|name| !has(&bytes, name)) {
            Some(missing) => {
                println!("cargo::error={library} has no sir_{missing}: build it anew (run tools/staticlib)")
            }
            None => {
                println!("cargo::rustc-cfg=sir_linked");
                println!("cargo::rustc-env=SIR_LIBRARY={library}");
                println!("cargo::rustc-link-search=native={}", folder.display());
                println!("cargo::rustc-link-lib=static=sir_capi");
            }
        },
        Err(error) if named.is_some() => println!("cargo::error=SIR_ANALYSES_LIB names no library: {library}: {error}"),
        Err(_) => println!("cargo::warning=no {library}: built without it (run tools/staticlib)"),
    }
}

/// Whether the table of an archive names a function.
fn has(archive: &[u8], function: &str) -> bool {
    let name = format!("sir_{function}\0");
    archive.windows(name.len()).any(|part| part == name.as_bytes())
}
