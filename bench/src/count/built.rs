//! How each side was built.

use std::process::Command;

use crate::table::{Row, Table, Verdict};

pub fn table() -> Table {
    let rustc = env!("RUSTC_VERSION");
    let speed = "release with `lto = \"fat\"`, `codegen-units = 1`, `panic = \"abort\"`";
    let mut rows = vec![
        row("ours", "by `rt lib`, linked statically".into()),
        row(
            "Rust core, plain",
            format!("{rustc}, `cargo build --release`"),
        ),
        row("Rust core, for speed", format!("{rustc}, {speed}")),
    ];
    let libraries = [
        ("libvterm", "libvterm0", cfg!(vterm)),
        ("libtsm", "libtsm4", cfg!(tsm)),
        ("libtelnet", "libtelnet2", cfg!(telnet)),
        ("memchr, memcpy", "libc6", true),
    ];
    let linked = libraries.iter().filter(|(_, _, linked)| *linked);
    rows.extend(linked.map(|(side, package, _)| row(side, debian(package))));
    Table::new("How the sides were built", &["side", "built"], rows)
}

fn row(side: &str, built: String) -> Row {
    Row {
        cells: vec![side.into(), built],
        verdict: Verdict::NoAim,
    }
}

/// The package's version, where it can be asked.
fn debian(package: &str) -> String {
    let asked = Command::new("dpkg-query")
        .args(["-W", "-f=${Version}", package])
        .output();
    let version = asked.ok().filter(|output| output.status.success());
    let version = version.and_then(|output| String::from_utf8(output.stdout).ok());
    let version = version.unwrap_or("of an unknown version".into());
    format!("Debian's shared library {package} {version}; its shim by `gcc -O2`")
}
