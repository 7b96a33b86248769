//! Links the terminal's static library.

use std::env;
use std::path::PathBuf;

fn main() {
    println!("cargo::rerun-if-env-changed=DET_LIB_DIR");
    let folder = match env::var_os("DET_LIB_DIR") {
        Some(folder) => PathBuf::from(folder),
        None => PathBuf::from("../target/staticlib"),
    };
    let library = folder.join("libdet_abi.a");
    println!("cargo::rerun-if-changed={}", library.display());
    // A relative folder is relative to this one, wherever the linker runs.
    let (Ok(folder), true) = (folder.canonicalize(), library.is_file()) else {
        let what = format!("{} is missing", library.display());
        let how = "make it with 'tools/staticlib det_abi', or name its folder in DET_LIB_DIR";
        println!("cargo::error={what}: {how}");
        return;
    };
    println!("cargo::rustc-link-search=native={}", folder.display());
    println!("cargo::rustc-link-lib=static=det_abi");
}
