//! Links the reader's static library, the shims in C, and the peers that are
//! installed.

use std::env;
use std::path::{Path, PathBuf};
use std::process::{Command, Stdio};

/// A peer: the name of its library, which is also its cfg flag's; its header;
/// its shim.
const PEERS: [(&str, &str, &str); 3] = [
    ("telnet", "libtelnet.h", "peers/telnet.c"),
    ("vterm", "vterm.h", "peers/vterm.c"),
    ("tsm", "libtsm.h", "peers/tsm.c"),
];

fn main() {
    // No such file: run each time, since a peer may have come or gone.
    println!("cargo::rerun-if-changed=peers/each-time");
    link_tally();
    name_compiler();
    for shim in ["stack", "mark", "floor"] {
        compile(shim, &format!("src/c/{shim}.c"));
    }
    for (library, header, shim) in PEERS {
        println!("cargo::rustc-check-cfg=cfg({library})");
        if has(header) {
            println!("cargo::rustc-cfg={library}");
            compile(&format!("{library}_shim"), shim);
            println!("cargo::rustc-link-lib={library}");
        }
    }
}

/// From the folder in which `host` looks for the terminal's.
fn link_tally() {
    println!("cargo::rerun-if-env-changed=DET_LIB_DIR");
    let folder = match env::var_os("DET_LIB_DIR") {
        Some(folder) => PathBuf::from(folder),
        None => PathBuf::from("../target/staticlib"),
    };
    let library = folder.join("libtally.a");
    let (Ok(folder), true) = (folder.canonicalize(), library.is_file()) else {
        let what = format!("{} is missing", library.display());
        println!("cargo::error={what}: make it with 'tools/staticlib tally'");
        return;
    };
    println!("cargo::rustc-link-search=native={}", folder.display());
    println!("cargo::rustc-link-lib=static=tally");
}

/// For the report: it is what the Rust core was built by.
fn name_compiler() {
    let rustc = env::var_os("RUSTC").expect("cargo sets it");
    let asked = Command::new(rustc).arg("--version").output();
    let said = asked.map(|output| String::from_utf8_lossy(&output.stdout).trim().to_string());
    let version = said.unwrap_or("rustc of an unknown version".into());
    println!("cargo::rustc-env=RUSTC_VERSION={version}");
}

/// Whether the compiler finds the header. libtelnet's wants `stddef.h` first.
fn has(header: &str) -> bool {
    let mut gcc = Command::new("gcc");
    gcc.args(["-E", "-include", "stddef.h", "-include", header]);
    gcc.args(["-x", "c", "/dev/null"]);
    let gcc = gcc.stdout(Stdio::null()).stderr(Stdio::null());
    gcc.status().is_ok_and(|status| status.success())
}

/// Makes a static library of one file and links it.
fn compile(name: &str, file: &str) {
    let out = env::var_os("OUT_DIR").expect("cargo sets it");
    let out = Path::new(&out);
    let object = out.join(format!("{name}.o"));
    let library = out.join(format!("lib{name}.a"));
    let (mut gcc, mut ar) = (Command::new("gcc"), Command::new("ar"));
    gcc.args(["-O2", "-Wall", "-Wextra", "-I../include", "-c", file]);
    gcc.arg("-o").arg(&object);
    ar.arg("crs").args([&library, &object]);
    if !(done(&mut gcc) && done(&mut ar)) {
        println!("cargo::error={file}: gcc or ar failed, or is missing");
        return;
    }
    println!("cargo::rustc-link-search=native={}", out.display());
    println!("cargo::rustc-link-lib=static={name}");
}

fn done(command: &mut Command) -> bool {
    command.status().is_ok_and(|status| status.success())
}
