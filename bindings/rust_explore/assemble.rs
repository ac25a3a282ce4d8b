//! Builds the library from its assembly, and the explorer, with the system's C compiler (CC and AR may name others); or
//! takes the folder that NIC82540EM_LIB names. The build scripts of both crates contain this file.

use std::path::{Path, PathBuf};
use std::process::Command;
use std::{env, fs};

fn of(name: &str) -> String {
    env::var(name).unwrap_or_else(|_| panic!("{name} isn't set: cargo sets it"))
}

fn run(command: &mut Command) {
    let status = command.status().unwrap_or_else(|error| panic!("{command:?}: {error}"));
    assert!(status.success(), "{command:?} failed");
}

/// The folder with the sources: that of an amalgamation if the crate is in one, or else what the repository's `dist`
/// contains.
fn sources(out: &Path) -> PathBuf {
    let top = PathBuf::from(of("CARGO_MANIFEST_DIR")).join("../..");
    println!("cargo:rerun-if-changed={}", top.join("dist").display());
    if top.join("nic82540em_explore.c").exists() {
        return top;
    }
    let (script, folder) = (top.join("tools/dist.py"), out.join("nic82540em"));
    assert!(
        script.exists() && top.join("dist/nic82540em.tar.xz").exists(),
        "set NIC82540EM_LIB to the folder lib that `tools/library FOLDER` writes: there is no release in dist"
    );
    run(Command::new("python3").arg("-B").arg(script).args(["unpack", "nic82540em"]).arg(&folder));
    folder
}

/// Compiles these files of the sources, at the same time, into a static library.
fn compile(library: &str, names: &[&str], sources: &Path, out: &Path) {
    let is_cross = of("HOST") != of("TARGET");
    let prefix = if is_cross { format!("{}-linux-gnu-", of("CARGO_CFG_TARGET_ARCH")) } else { String::new() };
    let compiler = env::var("CC").unwrap_or(format!("{prefix}{}", if is_cross { "gcc" } else { "cc" }));
    let archiver = env::var("AR").unwrap_or(format!("{prefix}ar"));
    let files: Vec<PathBuf> = names.iter().map(|name| sources.join(name)).filter(|path| path.exists()).collect();
    let objects: Vec<PathBuf> = files.iter().map(|path| out.join(path.file_name().unwrap()).with_extension("o")).collect();
    let begun = files.iter().zip(&objects).map(|(file, object)| {
        let mut command = Command::new(&compiler);
        command.args(["-O2", "-fPIC", "-fno-plt", "-fno-common", "-c"]).arg("-o").arg(object).arg(file);
        (command.spawn().unwrap_or_else(|error| panic!("{compiler}: {error}: install a C compiler")), file)
    });
    for (mut child, file) in begun.collect::<Vec<_>>() {
        assert!(child.wait().expect("it runs").success(), "{} isn't compiled", file.display());
    }
    let made = out.join(format!("lib{library}.a"));
    let _ = fs::remove_file(&made);
    run(Command::new(archiver).arg("rcsD").arg(made).args(objects));
}

/// Links a library: of NIC82540EM_LIB, or of these files of the sources and of assembly, whose names lack the processor.
pub fn link(library: &str, files: &[&str], assembly: &[&str]) {
    for name in ["NIC82540EM_LIB", "CC", "AR"] {
        println!("cargo:rerun-if-env-changed={name}");
    }
    println!("cargo:rustc-link-lib=static={library}");
    if let Ok(folder) = env::var("NIC82540EM_LIB") {
        println!("cargo:rustc-link-search=native={folder}");
        return;
    }
    let (processor, system) = (of("CARGO_CFG_TARGET_ARCH"), of("CARGO_CFG_TARGET_OS"));
    assert!(system == "linux", "there is no code for {system}: the library is for Linux");
    let out = PathBuf::from(of("OUT_DIR"));
    let sources = sources(&out);
    let code: Vec<String> = assembly.iter().map(|name| format!("{name}-{processor}.S")).collect();
    for name in &code {
        assert!(sources.join(name).exists(), "there is no code for {processor}: {name} is missing");
    }
    let names: Vec<&str> = files.iter().copied().chain(code.iter().map(String::as_str)).collect();
    compile(library, &names, &sources, &out);
    println!("cargo:rustc-link-search=native={}", out.display());
}
