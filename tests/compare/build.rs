//! Links the library under test if DEPOSITORY_LIB names it (a .a or .so
//! file); without it, only the reference can be compared with itself.

use std::env;
use std::path::{Path, PathBuf};
use std::process::Command;

/// All of the library that this program calls.
const FUNCTIONS: [&str; 11] = [
    "depository_fresh",
    "depository_call",
    "depository_day",
    "depository_item",
    "depository_rate",
    "depository_sizes",
    "depository_security",
    "depository_held",
    "depository_request",
    "depository_read",
    "depository_write",
];

fn main() {
    println!("cargo::rustc-check-cfg=cfg(library_linked)");
    println!("cargo::rerun-if-env-changed=DEPOSITORY_LIB");
    println!("cargo::rerun-if-changed=build.rs");
    let Ok(library) = env::var("DEPOSITORY_LIB") else {
        return;
    };
    let library = Path::new(&library).canonicalize().expect("DEPOSITORY_LIB names a file");
    println!("cargo::rerun-if-changed={}", library.display());
    println!("cargo::rustc-cfg=library_linked");
    if library.extension().is_some_and(|extension| extension == "a") {
        link("static", &with_own_names(&library));
    } else {
        link("dylib", &library);
    }
}

fn link(kind: &str, library: &Path) {
    let directory = library.parent().expect("a file is in a directory");
    let stem = library.file_stem().and_then(|stem| stem.to_str()).expect("a file name");
    let name = stem.strip_prefix("lib").expect("the file name starts with lib");
    println!("cargo::rustc-link-search=native={}", directory.display());
    println!("cargo::rustc-link-lib={kind}={name}");
}

/// A copy of a static library in which all names but these functions are its
/// own: a library for use from C may bring what this program has too, such as
/// a panic handler.
fn with_own_names(library: &Path) -> PathBuf {
    let directory = PathBuf::from(env::var("OUT_DIR").expect("cargo gives OUT_DIR"));
    let (object, archive) = (directory.join("depository.o"), directory.join("libdepository.a"));
    let mut join = Command::new("ld");
    // Groups of shared sections would be merged with this program's.
    join.args(["-r", "--force-group-allocation"]);
    join.args(FUNCTIONS.map(|name| format!("--undefined={name}"))).arg("-o").arg(&object).arg(library);
    run(&mut join);
    let mut hide = Command::new("objcopy");
    // Joined sections of compiler data are of no use and trouble `ar`.
    hide.args(["--remove-section=.llvmbc", "--remove-section=.llvmcmd"]);
    run(hide.args(FUNCTIONS.map(|name| format!("--keep-global-symbol={name}"))).arg(&object));
    let _ = std::fs::remove_file(&archive);
    run(Command::new("ar").arg("crs").arg(&archive).arg(&object));
    archive
}

fn run(command: &mut Command) {
    let status = command.status().unwrap_or_else(|error| panic!("{command:?}: {error}"));
    assert!(status.success(), "{command:?}: {status}");
}
