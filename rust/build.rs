//! Links the static library: the one that THINNAROM_LIBRARY names, or the one that the kit builds
//! in this repository.

use std::env;
use std::path::{Path, PathBuf};

const VARIABLE: &str = "THINNAROM_LIBRARY";

fn main() {
    println!("cargo::rerun-if-env-changed={VARIABLE}");
    match library().and_then(|library| link(&library)) {
        Ok(()) => {}
        Err(problem) => println!("cargo::error={problem}"),
    }
}

/// Cargo runs this in the package's folder, where a path of the caller's folder would be looked for
/// in vain.
fn library() -> Result<PathBuf, String> {
    let Some(named) = env::var_os(VARIABLE).map(PathBuf::from) else {
        return Ok(package().join("../crates/thinnarom/out/libthinnarom.a"));
    };
    match named.is_absolute() {
        true => Ok(named),
        false => Err(format!(
            "{VARIABLE} has to be an absolute path, and is {}",
            named.display()
        )),
    }
}

fn package() -> PathBuf {
    PathBuf::from(env::var_os("CARGO_MANIFEST_DIR").expect("cargo names the package's folder"))
}

/// The linker goes by the file's name, so it gets a copy under the name that it looks for.
fn link(library: &Path) -> Result<(), String> {
    println!("cargo::rerun-if-changed={}", library.display());
    let folder =
        PathBuf::from(env::var_os("OUT_DIR").expect("cargo names a folder for what is built"));
    std::fs::copy(library, folder.join("libthinnarom.a")).map_err(|error| {
        format!(
            "no library at {} ({error}): make it with `rt lib` in crates/thinnarom of the repository, or name another in {VARIABLE}",
            library.display()
        )
    })?;
    println!("cargo::rustc-link-search=native={}", folder.display());
    println!("cargo::rustc-link-lib=static=thinnarom");
    Ok(())
}
