//! Finds liblrc_embed: in the folder that LRC_EMBED_LIBRARY names, or else by pkg-config. LRC_EMBED_STATIC=1 takes the static one.
use std::{env, process::Command};

/// The version of the interface that the declarations are of, which is that of the crate.
const VERSION: &str = env!("CARGO_PKG_VERSION_MAJOR");

fn pkg_config(word: &str) -> String {
    match Command::new("pkg-config").args([word, "lrc_embed"]).output() {
        Ok(said) if said.status.success() => String::from_utf8_lossy(&said.stdout).trim().to_owned(),
        Ok(said) => panic!("liblrc_embed is not found: {}", String::from_utf8_lossy(&said.stderr).trim()),
        Err(why) => panic!("pkg-config does not run: {why}; LRC_EMBED_LIBRARY may name the folder of the library"),
    }
}

fn main() {
    for name in ["LRC_EMBED_LIBRARY", "LRC_EMBED_STATIC", "PKG_CONFIG_PATH"] {
        println!("cargo:rerun-if-env-changed={name}");
    }
    if let Ok(folder) = env::var("LRC_EMBED_LIBRARY") {
        println!("cargo:rustc-link-search=native={folder}");
    } else {
        let found = pkg_config("--modversion");
        assert!(found == VERSION, "the library has version {found} of its interface, and this crate is for version {VERSION}");
        println!("cargo:rustc-link-search=native={}", pkg_config("--variable=libdir"));
    }
    let kind = if env::var("LRC_EMBED_STATIC").is_ok_and(|it| it == "1") { "static" } else { "dylib" };
    println!("cargo:rustc-link-lib={kind}=lrc_embed");
}
