//! With the feature `host`, links the C libraries of the verified machine, or one that stands in for them; with `desk`, the desk's alone.
//!
//! TARIFF_LIB names their directory. TARIFF_LINK says what to link, with a comma between: `static=host,static=desk` if it isn't set, or
//! `static=desk` for the desk alone.

use std::env;

fn main() {
    println!("cargo:rerun-if-env-changed=TARIFF_LIB");
    println!("cargo:rerun-if-env-changed=TARIFF_LINK");
    if env::var_os("CARGO_FEATURE_DESK").is_none() {
        return;
    }
    let directory = env::var("TARIFF_LIB").expect("TARIFF_LIB names the directory of the libraries");
    let both = if env::var_os("CARGO_FEATURE_HOST").is_some() { "static=host,static=desk" } else { "static=desk" };
    let libraries = env::var("TARIFF_LINK").unwrap_or_else(|_| both.into());
    println!("cargo:rustc-link-search=native={directory}");
    for library in libraries.split(',') {
        let (kind, name) = library.split_once('=').expect("a kind, =, and a name");
        let ending = if kind == "static" { "a" } else { "so" };
        println!("cargo:rustc-link-lib={library}");
        println!("cargo:rerun-if-changed={directory}/lib{name}.{ending}");
    }
    // a shared library is found where it was linked; an archive needs no such path in the program
    if libraries.contains("dylib=") {
        println!("cargo:rustc-link-arg=-Wl,-rpath,{directory}");
    }
}
