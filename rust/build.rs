//! Links `libmst.a`: that of the folder in MST_LIBRARY_FOLDER, else that of the package's own `lib/`, else the one that `c/build` made.
use std::{
    env,
    path::{Path, PathBuf},
    process::exit,
};

fn main() {
    println!("cargo:rerun-if-env-changed=MST_LIBRARY_FOLDER");
    let target = env::var("TARGET").unwrap_or_default();
    if !(target.starts_with("x86_64-") && target.contains("-linux-")) {
        stop(&format!("the library is for x86-64 and Linux, and not for {target}"));
    }
    let package = PathBuf::from(env::var_os("CARGO_MANIFEST_DIR").unwrap_or_default());
    let folder = match env::var_os("MST_LIBRARY_FOLDER") {
        Some(folder) => PathBuf::from(folder),
        None if library(&package.join("lib")).is_file() => package.join("lib"),
        None => package.join("../c"),
    };
    let library = library(&folder);
    println!("cargo:rerun-if-changed={}", library.display());
    if !library.is_file() {
        stop(&format!(
            "{} isn't there: take the package of a release, which has it; or run c/build in a checkout; or set MST_LIBRARY_FOLDER to the \
             folder that has libmst.a",
            library.display()
        ));
    }
    println!("cargo:rustc-link-search=native={}", folder.display());
    println!("cargo:rustc-link-lib=static=mst");
}

fn library(folder: &Path) -> PathBuf {
    folder.join("libmst.a")
}

fn stop(reason: &str) {
    eprintln!("mst: {reason}");
    exit(1);
}
