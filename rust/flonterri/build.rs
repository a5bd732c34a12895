//! Finds the archive that `.ci/compare` builds and has it linked.

use std::env;
use std::path::{Path, PathBuf};
use std::process::exit;

/// The folder of the archive, where it is not `target/staticlib` of the repository.
const FOLDER: &str = "FLONTERRI_LIB_DIR";

/// The archive's name.
const ARCHIVE: &str = "libflonterri.a";

fn main() {
    println!("cargo:rerun-if-env-changed={}", FOLDER);
    let folder = folder();
    let archive = folder.join(ARCHIVE);
    println!("cargo:rerun-if-changed={}", archive.display());

    if !archive.is_file() {
        fail(&format!(
            "there is no {} in {}. Build it as README.md says under \"Link it\", \
             or set {} to the folder that has the archive",
            ARCHIVE,
            folder.display(),
            FOLDER
        ));
    }
    let processor = env::var("CARGO_CFG_TARGET_ARCH").unwrap_or_default();
    if processor != "x86_64" {
        fail(&format!(
            "the archive is for x86-64 and this build is for {}. Build with \
             `--target x86_64-unknown-linux-gnu`",
            processor
        ));
    }
    println!("cargo:rustc-link-search=native={}", folder.display());
    println!("cargo:rustc-link-lib=static=flonterri");
}

/// The folder that the environment names, else `target/staticlib` of the repository; absolute,
/// since the linker may run in another folder.
fn folder() -> PathBuf {
    let folder = match env::var_os(FOLDER).filter(|folder| !folder.is_empty()) {
        Some(named) => from_caller(Path::new(&named)),
        None => {
            let crate_folder = env::var_os("CARGO_MANIFEST_DIR").unwrap_or_default();
            PathBuf::from(crate_folder).join("../../target/staticlib")
        }
    };
    folder.canonicalize().unwrap_or(folder)
}

/// A folder as the caller means it. Cargo runs this program in the crate's own folder, and leaves
/// the variable PWD as the caller's shell has set it.
fn from_caller(named: &Path) -> PathBuf {
    if named.is_absolute() {
        return named.to_path_buf();
    }
    println!("cargo:rerun-if-env-changed=PWD");
    match env::var_os("PWD").map(PathBuf::from) {
        Some(caller) if caller.is_absolute() => caller.join(named),
        _ => fail(&format!(
            "{} is {}, and from which folder is not known, since PWD is not set. Give the whole path",
            FOLDER,
            named.display()
        )),
    }
}

/// Ends the build with a message.
fn fail(message: &str) -> ! {
    eprintln!("flonterri: {}", message);
    exit(1)
}
