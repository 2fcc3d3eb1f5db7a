//! Compiles the library for a target that has no released one: of C that release/any/module_c.py writes of js/gazhdor.wasm, which a
//! packed crate has in lib/any.
use super::{folder_of, see_whole, variable};
use std::fs;
use std::path::{Path, PathBuf};
use std::process::{Command, Stdio};

/// The library, in this folder, of the packed crate or the tree that is here.
pub fn archive(here: &Path, to: &Path) -> PathBuf {
    let packed = here.join("lib/any");
    let sources = folder_of("everywhere.c", &packed, &here.join("../release/any"));
    let headers = folder_of("gazhdor.h", &packed, &here.join("../c"));
    println!("cargo:rerun-if-changed={}", sources.display());
    println!("cargo:rerun-if-changed={}", headers.display());
    if !packed.join("gazhdor_module.c").exists() {
        write_module(here, &to.join("gazhdor_module.c"));
    }
    let object = to.join("gazhdor.o");
    run(&tools("CC", &usual("gcc", &["cc", "gcc", "clang"])), |command| {
        command.args(["-std=c99", "-w", "-c"]).args(words("CFLAGS", "-O2")).arg(sources.join("everywhere.c"));
        command.arg("-I").arg(&headers).arg("-I").arg(&packed).arg("-I").arg(to).arg("-o").arg(&object);
        if variable("CARGO_CFG_TARGET_OS") != "windows" {
            command.arg("-fPIC");
        }
    });
    let name = if variable("CARGO_CFG_TARGET_ENV") == "msvc" { "gazhdor.lib" } else { "libgazhdor.a" };
    let archive = to.join(name);
    let _ = fs::remove_file(&archive);
    run(&tools("AR", &usual("ar", &["ar", "llvm-ar"])), |command| {
        command.arg("crs").arg(&archive).arg(&object);
    });
    archive
}

/// Writes the C of the tree's module, which needs python3.
fn write_module(here: &Path, to: &Path) {
    let module = here.join("../js/gazhdor.wasm");
    see_whole(&here.join("../release/SHA256SUMS"), &module, "  js/gazhdor.wasm");
    let made = Command::new("python3")
        .arg("-B")
        .arg(here.join("../release/any/module_c.py"))
        .arg(&module)
        .stderr(Stdio::inherit())
        .output();
    match made {
        Ok(made) if made.status.success() => fs::write(to, made.stdout).expect("the C of the module can't be written"),
        Ok(made) => panic!("release/any/module_c.py failed: {}", made.status),
        Err(error) => panic!("python3, which writes the C of the library, can't be run: {error}"),
    }
}

/// What a tool is called: for Windows, on another system, by its name in MinGW-w64.
fn usual(tool: &str, here: &[&str]) -> Vec<String> {
    let (target, host) = (variable("TARGET"), variable("HOST"));
    if target.ends_with("-pc-windows-gnu") && !host.contains("windows") {
        let processor = target.split('-').next().unwrap_or_default();
        return vec![format!("{processor}-w64-mingw32-{tool}")];
    }
    here.iter().map(|name| name.to_string()).collect()
}

/// The words of an environment variable for the target, else the usual ones.
fn words(name: &str, usual: &str) -> Vec<String> {
    told(name).unwrap_or_else(|| usual.to_string()).split_whitespace().map(String::from).collect()
}

/// What environment variables call a tool for the target; else its usual names.
fn tools(name: &str, usual: &[String]) -> Vec<String> {
    told(name).map_or_else(|| usual.to_vec(), |told| vec![told])
}

/// What the first of some environment variables says, as CC_x86_64_unknown_linux_gnu, TARGET_CC and CC.
fn told(name: &str) -> Option<String> {
    let target = variable("TARGET");
    let names = [
        format!("{name}_{target}"),
        format!("{name}_{}", target.replace('-', "_")),
        format!("TARGET_{name}"),
        name.to_string(),
    ];
    for name in &names {
        println!("cargo:rerun-if-env-changed={name}");
    }
    names.iter().map(|name| variable(name)).find(|told| !told.is_empty())
}

/// Runs the first of some tools that is there. Stops where it fails, or none is there.
fn run(tools: &[String], give: impl Fn(&mut Command)) {
    for tool in tools {
        let mut words = tool.split_whitespace();
        let mut command = Command::new(words.next().unwrap_or_default());
        command.args(words);
        give(&mut command);
        match command.status() {
            Ok(status) if status.success() => return,
            Ok(status) => panic!("{tool} failed: {status}"),
            Err(_) => continue,
        }
    }
    let target = variable("TARGET");
    let name = format!("CC_{} or AR_{}", target.replace('-', "_"), target.replace('-', "_"));
    panic!("there is no library of gazhdor for {target}, and none of {tools:?} is here to make one: install it, or name another by {name}");
}
