//! Asks pkg-config where the library is installed, and has cargo link it.

use std::process::Command;

fn main() {
    for variable in [
        "PKG_CONFIG",
        "PKG_CONFIG_PATH",
        "PKG_CONFIG_LIBDIR",
        "PKG_CONFIG_SYSROOT_DIR",
    ] {
        println!("cargo:rerun-if-env-changed={variable}");
    }
    let asked = std::env::var("PKG_CONFIG").unwrap_or_else(|_| "pkg-config".into());
    let reply = Command::new(&asked)
        .args(["--libs", "heronditch >= 3"])
        .output()
        .unwrap_or_else(|error| {
            panic!("cannot run {asked}, which says where heronditch is installed: {error}")
        });
    if !reply.status.success() {
        panic!(
            "install heronditch, or name its folder by PKG_CONFIG_PATH: {}",
            String::from_utf8_lossy(&reply.stderr)
        );
    }
    for word in String::from_utf8_lossy(&reply.stdout).split_whitespace() {
        if let Some(folder) = word.strip_prefix("-L") {
            println!("cargo:rustc-link-search=native={folder}");
        } else if let Some(library) = word.strip_prefix("-l") {
            println!("cargo:rustc-link-lib={library}");
        }
    }
}
