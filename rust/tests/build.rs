//! Which library the build script takes, and what it says of a target or a library that isn't the right one.
#[allow(dead_code)]
#[path = "../build.rs"]
mod script;

use script::{folder_of, machine_of, see_library, sha256, whole};
use std::path::{Path, PathBuf};
use std::{env, fs, process};

fn archive(bytes: &[u8], name: &str) -> PathBuf {
    let path = env::temp_dir().join(format!("gazhdor-{}-{name}", process::id()));
    fs::write(&path, bytes).unwrap();
    path
}

#[test]
fn what_is_packed_comes_first() {
    let (packed, tree) = (env::temp_dir(), Path::new("tree"));
    let there = archive(b"", "packed");
    let name = there.file_name().unwrap().to_str().unwrap();
    assert_eq!(folder_of(name, &packed, tree), packed);
    fs::remove_file(&there).unwrap();
    assert_eq!(folder_of(name, &packed, tree), tree);
}

#[test]
fn the_right_ones() {
    assert_eq!(machine_of("linux", "x86_64").as_deref(), Some("x86_64-linux"));
    assert_eq!(machine_of("linux", "aarch64").as_deref(), Some("aarch64-linux"));
    for (os, processor) in [("linux", "riscv64"), ("macos", "x86_64"), ("windows", "x86_64")] {
        assert_eq!(machine_of(os, processor), None);
    }
    let right = archive(b"before\x000.9.0\0after", "right");
    see_library(&right, "0.9.0");
    fs::remove_file(right).unwrap();
}

/// The standard's own examples, and a million letters.
#[test]
fn known_sums() {
    let million = "a".repeat(1_000_000);
    for (text, sum) in [
        ("", "e3b0c44298fc1c149afbf4c8996fb92427ae41e4649b934ca495991b7852b855"),
        ("abc", "ba7816bf8f01cfea414140de5dae2223b00361a396177a9cb410ff61f20015ad"),
        (
            "abcdbcdecdefdefgefghfghighijhijkijkljklmklmnlmnomnopnopq",
            "248d6a61d20638b8e5c026930c3e6039a33ce45964ff2167f6ecedd419db06c1",
        ),
        (&million, "cdc76e5c9914fb9281a1c7e284d73e67f1809a48a497200e046d39ccc7112cd0"),
    ] {
        assert_eq!(sha256::hexadecimal(text.as_bytes()), sum);
    }
}

/// A library that is what SHA256SUMS says, and one that isn't.
#[test]
fn damaged() {
    let folders = env::temp_dir().join(format!("gazhdor-{}-folders", process::id()));
    let folder = folders.join("x86_64-linux");
    fs::create_dir_all(&folder).unwrap();
    let sum = "ba7816bf8f01cfea414140de5dae2223b00361a396177a9cb410ff61f20015ad";
    fs::write(folders.join("SHA256SUMS"), format!("{sum}  release/x86_64-linux/libgazhdor.a\n")).unwrap();
    fs::write(folder.join("libgazhdor.a"), "abc").unwrap();
    assert_eq!(whole(&folders, "x86_64-linux"), folder);
    fs::write(folder.join("libgazhdor.a"), "abd").unwrap();
    let seen = std::panic::catch_unwind(|| whole(&folders, "x86_64-linux"));
    fs::remove_dir_all(&folders).unwrap();
    let said = seen.unwrap_err().downcast::<String>().unwrap();
    assert!(said.contains("x86_64-linux/libgazhdor.a is damaged: it is not what"), "{said}");
}

#[test]
#[should_panic(
    expected = "none/libgazhdor.a can't be read: No such file or directory (os error 2); GAZHDOR_LIB_DIR names"
)]
fn no_library() {
    see_library(Path::new("none/libgazhdor.a"), "0.9.0");
}

#[test]
fn another_version() {
    let other = archive(b"before\x000.9.01\0after", "other");
    let seen = std::panic::catch_unwind(|| see_library(&other, "0.9.0"));
    fs::remove_file(&other).unwrap();
    let said = seen.unwrap_err().downcast::<String>().unwrap();
    assert_eq!(*said, format!("{} isn't the library of gazhdor 0.9.0", other.display()));
}
