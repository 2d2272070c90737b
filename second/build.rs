//! Links the host library into `compare` when HOST_LIB_DIR names its folder.
//! Without it everything else is built, and `compare` says what it lacks.

use std::env;
use std::path::Path;

fn main() {
    println!("cargo::rerun-if-env-changed=HOST_LIB_DIR");
    println!("cargo::rustc-check-cfg=cfg(host)");
    let Some(folder) = env::var_os("HOST_LIB_DIR") else {
        return;
    };
    let library = Path::new(&folder).join("libheronditch.a");
    let library = library
        .canonicalize()
        .unwrap_or_else(|error| panic!("HOST_LIB_DIR: {}: {error}", library.display()));
    println!("cargo::rerun-if-changed={}", library.display());
    println!("cargo::rustc-cfg=host");
    println!("cargo::rustc-link-arg-bin=compare={}", library.display());
}
