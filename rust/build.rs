//! Links libgazhdor.a: that of the folder which GAZHDOR_LIB_DIR names, else that of lib/, which a packed crate has, else that of
//! release/ in the tree above. The last two have one for each processor of Linux, and their SHA-256. For other targets, and where
//! GAZHDOR_COMPILE is set, the library is compiled here.
use std::path::{Path, PathBuf};
use std::{env, fs};

#[path = "compiled.rs"]
pub mod compiled;
#[path = "sha256.rs"]
pub mod sha256;

const LIBRARY: &str = "libgazhdor.a";

fn variable(name: &str) -> String {
    env::var(name).unwrap_or_default()
}

fn main() {
    println!("cargo:rerun-if-env-changed=GAZHDOR_LIB_DIR");
    println!("cargo:rerun-if-env-changed=GAZHDOR_COMPILE");
    let here = PathBuf::from(variable("CARGO_MANIFEST_DIR"));
    let released = match variable("GAZHDOR_COMPILE").is_empty() {
        true => machine_of(&variable("CARGO_CFG_TARGET_OS"), &variable("CARGO_CFG_TARGET_ARCH")),
        false => None,
    };
    let archive = match (env::var_os("GAZHDOR_LIB_DIR"), released) {
        (Some(named), _) => PathBuf::from(named).join(LIBRARY),
        (None, Some(machine)) => {
            whole(&folder_of("SHA256SUMS", &here.join("lib"), &here.join("../release")), &machine).join(LIBRARY)
        }
        (None, None) => compiled::archive(&here, Path::new(&variable("OUT_DIR"))),
    };
    let folder = archive.parent().unwrap_or(Path::new("."));
    see_library(&archive, &variable("CARGO_PKG_VERSION"));
    println!("cargo:rerun-if-changed={}", archive.display());
    println!("cargo:rustc-link-search=native={}", folder.display());
    println!("cargo:rustc-link-lib=static=gazhdor");
    // Where the tests and the examples of the documentation find the rides.
    let rides = folder_of("ride.fit", &here.join("tests"), &here.join("../examples"));
    println!("cargo:rustc-env=GAZHDOR_RIDES={}", rides.display());
}

/// The folder of a packed crate where it has the file, else that of the tree.
pub fn folder_of(file: &str, packed: &Path, tree: &Path) -> PathBuf {
    match packed.join(file).exists() {
        true => packed.to_path_buf(),
        false => tree.to_path_buf(),
    }
}

/// The name of the folder that has a target's library; none where there is no such folder.
pub fn machine_of(os: &str, processor: &str) -> Option<String> {
    let released = os == "linux" && ["x86_64", "aarch64"].contains(&processor);
    released.then(|| format!("{processor}-linux"))
}

/// The folder of a machine's library, which stops where that isn't what SHA256SUMS beside the folder says of it.
pub fn whole(folders: &Path, machine: &str) -> PathBuf {
    let folder = folders.join(machine);
    see_whole(&folders.join("SHA256SUMS"), &folder.join(LIBRARY), &format!("/{machine}/{LIBRARY}"));
    folder
}

/// Stops where a file isn't what a list of sums says of the place whose name ends so.
pub fn see_whole(sums: &Path, file: &Path, place: &str) {
    println!("cargo:rerun-if-changed={}", sums.display());
    let told = read(sums);
    let sum = sha256::hexadecimal(&read(file));
    let line_of = |line: &str| line.starts_with(&format!("{sum}  ")) && line.ends_with(place);
    if !String::from_utf8_lossy(&told).lines().any(line_of) {
        panic!("{} is damaged: it is not what {} says", file.display(), sums.display());
    }
}

/// Stops where there is no library, or one of another version: the text of its version ends in a zero, as every text in C.
pub fn see_library(archive: &Path, version: &str) {
    let bytes = read(archive);
    let text = format!("{version}\0");
    if !bytes.windows(text.len()).any(|window| window == text.as_bytes()) {
        panic!("{} isn't the library of gazhdor {version}", archive.display());
    }
}

fn read(path: &Path) -> Vec<u8> {
    match fs::read(path) {
        Ok(bytes) => bytes,
        Err(error) => {
            panic!("{} can't be read: {error}; GAZHDOR_LIB_DIR names the folder that has {LIBRARY}", path.display())
        }
    }
}
