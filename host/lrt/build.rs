//! Links the proved player's static library, where there is one.
//!
//! `LRT_LIB` names it, and an empty one says to go without; else it is looked for where `host/run library` leaves it.
//! With a library the cfg `proved` is set. Without one everything compiles the same, a line says what to run, and there
//! is no player.

use std::env;
use std::path::{Path, PathBuf};

fn main() {
    println!("cargo:rustc-check-cfg=cfg(proved)");
    println!("cargo:rerun-if-env-changed=LRT_LIB");
    if let Err(why) = link() {
        println!("cargo:warning=what needs the proved player is skipped: {why}");
    }
}

fn library() -> PathBuf {
    match env::var_os("LRT_LIB") {
        Some(named) => PathBuf::from(named),
        None => {
            let root = Path::new(env!("CARGO_MANIFEST_DIR")).ancestors().nth(2).expect("host/lrt of the repository");
            root.join("target/staticlib/libplay.a")
        }
    }
}

fn link() -> Result<(), String> {
    let library = library();
    if library.as_os_str().is_empty() {
        return Err("LRT_LIB is empty".to_string());
    }
    println!("cargo:rerun-if-changed={}", library.display());
    let path = library.display();
    let found = library
        .canonicalize()
        .map_err(|_| format!("there is no {path}; to build it, run: host/run library (LRT_LIB names another one)"))?;
    let machine = env::var("CARGO_CFG_TARGET_ARCH").unwrap_or_default();
    if machine != "x86_64" {
        return Err(format!("the static library is for x86-64, and this is built for {machine}; run: host/run"));
    }
    let (Some(folder), Some(name)) = (found.parent(), found.file_name()) else {
        return Err(format!("{} is no file", found.display()));
    };
    println!("cargo:rustc-link-search=native={}", folder.display());
    println!("cargo:rustc-link-lib=static:+verbatim={}", name.to_string_lossy());
    println!("cargo:rustc-cfg=proved");
    Ok(())
}
