//! Finds the library: SEGDAG_LIBRARY names libsegdag.a or libsegdag.so, or their folder; else out/ of the checkout has it, or pkg-config or the
//! system knows it.
use std::env;
use std::path::{Path, PathBuf};
use std::process::Command;

/// Has the linker take the library at this path; an archive where both are there.
fn link(path: &Path) -> bool {
    let (folder, kind) = if path.is_dir() {
        match (
            path.join("libsegdag.a").exists(),
            path.join("libsegdag.so").exists(),
        ) {
            (true, _) => (path.to_path_buf(), "static"),
            (_, true) => (path.to_path_buf(), "dylib"),
            _ => return false,
        }
    } else if path.exists() {
        let kind = if path.extension().is_some_and(|it| it == "a") {
            "static"
        } else {
            "dylib"
        };
        (
            path.parent().map_or_else(PathBuf::new, Path::to_path_buf),
            kind,
        )
    } else {
        return false;
    };
    println!("cargo:rustc-link-search=native={}", folder.display());
    println!("cargo:rustc-link-lib={kind}=segdag");
    true
}

fn main() {
    println!("cargo:rerun-if-env-changed=SEGDAG_LIBRARY");
    if let Some(named) = env::var_os("SEGDAG_LIBRARY") {
        if !link(Path::new(&named)) {
            panic!("SEGDAG_LIBRARY is {named:?}, and there is no libsegdag.a or libsegdag.so: `make lib` in a checkout of segdag builds them");
        }
        return;
    }
    let out = Path::new(&env::var("CARGO_MANIFEST_DIR").unwrap_or_default()).join("../../../out");
    if link(&out) {
        return;
    }
    if let Ok(told) = Command::new("pkg-config")
        .args(["--libs-only-L", "segdag"])
        .output()
    {
        for folder in String::from_utf8_lossy(&told.stdout)
            .split_whitespace()
            .filter_map(|word| word.strip_prefix("-L"))
        {
            println!("cargo:rustc-link-search=native={folder}");
        }
    }
    println!("cargo:rustc-link-lib=dylib=segdag");
}
