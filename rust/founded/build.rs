//! Finds the archive of the proved calls and has it linked. Where there is none, the crate can still be checked and documented; what is linked then fails by the archive's name.

use std::env;
use std::fs;
use std::path::{Path, PathBuf};
use std::process::exit;

/// The archive's name to the linker. It is that of `links` in Cargo.toml too.
const NAME: &str = "founded_calls";

fn stop(message: &str) -> ! {
    eprintln!("founded: {message}");
    exit(1)
}

/// The archive that FOUNDED_ARCHIVE names, or its directory, and else the one that tools/archive makes.
fn archive(package: &Path, file: &str) -> PathBuf {
    let Some(given) = env::var_os("FOUNDED_ARCHIVE").map(PathBuf::from) else {
        return package.join("../../target/staticlib").join(file);
    };
    if given.is_relative() {
        stop(&format!(
            "FOUNDED_ARCHIVE is `{}`, which begins at no root: cargo does not say from where it was called, so the whole path is asked for",
            given.display()
        ));
    }
    if given.is_dir() {
        given.join(file)
    } else {
        given
    }
}

fn main() {
    println!("cargo:rerun-if-env-changed=FOUNDED_ARCHIVE");
    let package = env::var_os("CARGO_MANIFEST_DIR").expect("cargo says where the package is");
    let out = env::var_os("OUT_DIR").expect("cargo says where the build goes");
    if env::var("TARGET").as_deref() != Ok("x86_64-unknown-linux-gnu") {
        stop("the archive of the proved calls is for x86_64-unknown-linux-gnu alone");
    }
    let file = format!("lib{NAME}.a");
    let archive = archive(Path::new(&package), &file);
    println!("cargo:rerun-if-changed={}", archive.display());
    // A copy, since the archive may be made anew while this build lives on.
    let copy = Path::new(&out).join(&file);
    if let Err(error) = fs::copy(&archive, &copy) {
        // An older copy would be linked without a word.
        let _ = fs::remove_file(&copy);
        println!(
            "cargo:warning=no archive of the proved calls at {} ({error}), so nothing can be linked. Run tools/archive at the top of the repository, \
             or set FOUNDED_ARCHIVE to {file} or to its directory",
            archive.display()
        );
    }
    println!(
        "cargo:rustc-link-search=native={}",
        Path::new(&out).display()
    );
    println!("cargo:rustc-link-lib=static={NAME}");
    println!("cargo:rustc-env=FOUNDED_LINKED={}", copy.display());
}
