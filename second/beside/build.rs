//! Finds the archive of the compiled library, and compiles what is in plain C, with the numbers of a card that `second` has.
//!
//! BELFRYMIST_LIB names the folder of the archive. CC and AR name the compiler
//! and the archiver, where these are not gcc and ar.

use std::path::{Path, PathBuf};
use std::process::Command;

/// The folder of the C sources, and those that are compiled.
const SOURCES: &str = "../c";
const COMPILED: [&str; 2] = ["walk", "card"];

#[allow(dead_code)]
#[path = "../second/src/numbers.rs"]
mod numbers;

/// The numbers of a card that the C code takes from `second`, by their names in C, where refusals have some of the other names.
const NUMBERS: &[(&str, usize)] = &[
    ("BLOCK", numbers::BLOCK),
    ("AT_INDEX", numbers::INDEX),
    ("AT_A", numbers::CHECK_A),
    ("AT_B", numbers::CHECK_B),
    ("MODULUS", numbers::MODULUS as usize),
    ("AT_FORM", numbers::FORM),
    ("AT_KIND", numbers::KIND),
    ("AT_LETTERS", numbers::WORD_LENGTH),
    ("AT_GAP", numbers::HEAD_GAP),
    ("AT_COUNT", numbers::COUNT),
    ("AT_SPARE", numbers::HEAD_SPARE),
    ("THE_FORM", numbers::THE_FORM as usize),
    ("PAIR", numbers::PAIR as usize),
    ("SPAN", numbers::SPAN as usize),
    ("ENTRY", numbers::ENTRY),
    ("ENTRIES_PER_BLOCK", numbers::ENTRIES_PER_BLOCK),
    ("FEWEST_LETTERS", numbers::FEWEST_LETTERS as usize),
    ("MOST_LETTERS", numbers::MOST_LETTERS as usize),
    ("FEWEST_ENTRIES", numbers::FEWEST_ENTRIES as usize),
    ("MOST_ENTRIES", numbers::MOST_ENTRIES as usize),
    ("SPAN_WIDTH", numbers::SPAN_WIDTH as usize),
    ("NO_PLACE", numbers::NO_PLACE as usize),
];

fn main() {
    println!("cargo:rerun-if-changed=build.rs");
    println!("cargo:rerun-if-env-changed=BELFRYMIST_LIB");
    match std::env::var("BELFRYMIST_LIB") {
        Ok(folder) => {
            println!("cargo:rerun-if-changed={folder}/libbelfrymist.a");
            println!("cargo:rustc-link-search=native={folder}");
            println!("cargo:rustc-link-lib=static=belfrymist");
        }
        // Without the archive the package can still be checked and its library tested.
        Err(_) => println!("cargo:warning=BELFRYMIST_LIB is not set, so no program can be linked"),
    }
    println!("cargo:rerun-if-changed={SOURCES}");
    println!("cargo:rerun-if-env-changed=CC");
    println!("cargo:rerun-if-env-changed=AR");
    // Only `bench` and the tests of the C code want it.
    if let Err(what) = compile() {
        println!("cargo:warning=the C code cannot be linked: {what}");
    }
}

/// Compiles the C code into an archive that is linked where it is called.
fn compile() -> Result<(), String> {
    let folder = std::env::var("OUT_DIR").map_err(|error| error.to_string())?;
    let folder = PathBuf::from(folder);
    write_numbers(&folder.join("numbers.h")).map_err(|error| error.to_string())?;
    let archive = folder.join("libplainc.a");
    let mut archiver = Command::new(named("AR", "ar"));
    archiver.arg("crs").arg(&archive);
    for name in COMPILED {
        let source = Path::new(SOURCES).join(name).with_extension("c");
        let object = folder.join(name).with_extension("o");
        let mut compiler = Command::new(named("CC", "gcc"));
        compiler.args(["-O3", "-std=c11", "-Wall", "-Wextra", "-fPIE", "-c"]);
        compiler.arg("-I").arg(&folder);
        run(compiler.arg(source).arg("-o").arg(&object))?;
        archiver.arg(object);
    }
    run(&mut archiver)?;
    println!("cargo:rustc-link-search=native={}", folder.display());
    println!("cargo:rustc-link-lib=static=plainc");
    Ok(())
}

/// Writes the header that gives the C code its numbers.
fn write_numbers(header: &Path) -> std::io::Result<()> {
    let each = NUMBERS
        .iter()
        .map(|(name, number)| format!("    {name} = {number},\n"));
    let numbers: String = each.collect();
    let text = format!(
        "/* The numbers of a card, which build.rs takes from second/src/numbers.rs. */\n\n\
         #ifndef PLAIN_NUMBERS_H\n#define PLAIN_NUMBERS_H\n\nenum {{\n{numbers}}};\n\n#endif\n"
    );
    std::fs::write(header, text)
}

/// The tool that the environment names, or the one that is common.
fn named(variable: &str, common: &str) -> String {
    std::env::var(variable).unwrap_or_else(|_| common.to_string())
}

/// Runs a tool to its end.
fn run(tool: &mut Command) -> Result<(), String> {
    match tool.status() {
        Ok(status) if status.success() => Ok(()),
        Ok(status) => Err(format!("{tool:?} ended with {status}")),
        Err(error) => Err(format!("{tool:?}: {error}")),
    }
}
