//! Links the static library of the stage, the file that the environment variable PURDOLVE_LIB names.
use std::path::PathBuf;
use std::{env, process};

fn main() {
    println!("cargo:rerun-if-env-changed=PURDOLVE_LIB");
    let Some(library) = env::var_os("PURDOLVE_LIB").map(PathBuf::from).and_then(|p| p.canonicalize().ok()) else {
        eprintln!("PURDOLVE_LIB must name the static library of the colour stage, as /path/to/libexports.a");
        process::exit(1);
    };
    let (Some(folder), Some(file)) = (library.parent(), library.file_name()) else {
        eprintln!("PURDOLVE_LIB names no file: {}", library.display());
        process::exit(1);
    };
    println!("cargo:rerun-if-changed={}", library.display());
    println!("cargo:rustc-link-search=native={}", folder.display());
    println!("cargo:rustc-link-lib=static:+verbatim={}", file.to_string_lossy());
}
