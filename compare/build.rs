//! Brings three things together: the original's files, which stay where they are; this project's archive; and three files in C.
//!
//! `SVA_SOURCE` is a folder with the original somewhere below it; it has to be set. `SVA_LIB` is the folder of `libsva_c.a`, and need not be set where
//! `programs/archive` wrote it. Both are relative to this folder.
use std::env;
use std::fs;
use std::path::{Path, PathBuf};
use std::process::{exit, Command};

/// The files of the original that hold the part taken over (docs/SPECIFICATION.md, "Where it comes from").
const FILES: [&str; 3] = ["sva_ast", "sva_seq", "sva_fsm"];

fn main() {
    let out = PathBuf::from(env::var("OUT_DIR").expect("OUT_DIR"));
    let Some(source) = folder("SVA_SOURCE") else {
        eprintln!(
            "SVA_SOURCE is not set: it has to name the folder that has the original's three files, {}.rs, somewhere below it.",
            FILES.join(".rs, ")
        );
        exit(1);
    };
    include_original(&source, &out);
    link_archive(&folder("SVA_LIB").unwrap_or_else(|| PathBuf::from("../target/staticlib")));
    compile_c(&out);
}

/// The folder that a variable names, if it is set.
fn folder(variable: &str) -> Option<PathBuf> {
    println!("cargo:rerun-if-env-changed={variable}");
    env::var_os(variable).map(PathBuf::from)
}

/// Writes a module file that names the original's files by their paths, so that they are compiled as they are.
fn include_original(source: &Path, out: &Path) {
    let mut modules = String::new();
    for name in FILES {
        let Some(path) = found(source, &format!("{name}.rs")) else {
            eprintln!("There is no {name}.rs below {}, the folder that SVA_SOURCE names.", source.display());
            exit(1);
        };
        println!("cargo:rerun-if-changed={}", path.display());
        modules += &format!("#[path = {path:?}]\n#[allow(dead_code)]\nmod {name};\n#[allow(unused_imports)]\nuse {name}::*;\n");
    }
    fs::write(out.join("original_files.rs"), modules).expect("a module file");
}

/// The first file of that name below a folder.
fn found(folder: &Path, name: &str) -> Option<PathBuf> {
    let mut folders = vec![folder.to_path_buf()];
    while let Some(next) = folders.pop() {
        for entry in fs::read_dir(&next).ok()?.flatten() {
            let path = entry.path();
            if path.is_dir() {
                folders.push(path);
            } else if entry.file_name() == name {
                return path.canonicalize().ok();
            }
        }
    }
    None
}

/// Links this project's archive.
fn link_archive(library: &Path) {
    let archive = library.join("libsva_c.a");
    if !archive.is_file() {
        eprintln!("There is no {}: `programs/archive` makes it, or SVA_LIB names another folder that has it.", archive.display());
        exit(1);
    }
    println!("cargo:rerun-if-changed={}", archive.display());
    println!("cargo:rustc-link-search=native={}", library.display());
    println!("cargo:rustc-link-lib=static=sva_c");
}

/// Compiles and links what the benchmark holds the tick and the matcher against, and the calls on a small stack. The matcher's loops over
/// a row are worth a compiler's best: `-O3`, as for the archive.
fn compile_c(out: &Path) {
    println!("cargo:rerun-if-changed=../include/sva.h");
    let archive = out.join("libplain.a");
    let _ = fs::remove_file(&archive);
    for (name, level) in [("interpreter", "-O2"), ("small_stack", "-O2"), ("matcher", "-O3")] {
        let object = out.join(format!("{name}.o"));
        println!("cargo:rerun-if-changed=c/{name}.c");
        run(Command::new("gcc").args(["-std=c11", "-Wall", "-Wextra", level, "-c", "-o"]).arg(&object).arg(format!("c/{name}.c")));
        run(Command::new("ar").arg("rcs").arg(&archive).arg(&object));
    }
    println!("cargo:rustc-link-search=native={}", out.display());
    println!("cargo:rustc-link-lib=static=plain");
}

/// Runs a command that has to succeed.
fn run(command: &mut Command) {
    let status = command.status().expect("a command");
    assert!(status.success(), "{command:?} failed");
}
