//! Compiles the roots in roots/, which are timed beside the proved one, by the
//! system's C compiler, at the level and for the processors that `rt lib` has.

use std::env;
use std::fmt::Write;
use std::fs;
use std::path::{Path, PathBuf};
use std::process::Command;

const SOURCES: [&str; 2] = ["by_products", "bit_by_bit"];
const FLAGS: [&str; 6] = ["-std=c99", "-O3", "-fPIC", "-Wall", "-Wextra", "-c"];

fn main() {
    if let Err(message) = build() {
        println!("cargo::error={message}");
    }
}

fn build() -> Result<(), String> {
    let roots =
        PathBuf::from(env::var_os("CARGO_MANIFEST_DIR").expect("set by cargo")).join("roots");
    let out = PathBuf::from(env::var_os("OUT_DIR").expect("set by cargo"));
    println!("cargo::rerun-if-changed=build.rs");
    fs::write(out.join("reciprocals.h"), reciprocals()).map_err(|error| error.to_string())?;
    let mut archive = tool("AR", "ar");
    let library = out.join("libroots.a");
    archive.arg("crs").arg(&library);
    for name in SOURCES {
        let source = roots.join(name).with_extension("c");
        let object = out.join(name).with_extension("o");
        compile(&source, &object, &out)?;
        archive.arg(object);
    }
    run(archive, "set AR to an archiver")?;
    println!("cargo::rustc-link-search=native={}", out.display());
    Ok(())
}

fn compile(source: &Path, object: &Path, include: &Path) -> Result<(), String> {
    println!("cargo::rerun-if-changed={}", source.display());
    let mut compiler = tool("CC", "cc");
    compiler.args(FLAGS).arg("-I").arg(include);
    if env::var("CARGO_CFG_TARGET_ARCH").is_ok_and(|arch| arch == "x86_64") {
        compiler.arg("-march=x86-64-v2");
    }
    compiler.arg(source).arg("-o").arg(object);
    run(compiler, "install a C compiler, or set CC to one")
}

/// What a variable names, with any arguments behind it, or the usual program.
fn tool(variable: &str, usual: &str) -> Command {
    println!("cargo::rerun-if-env-changed={variable}");
    let line = env::var(variable).unwrap_or_default();
    let mut words = line.split_whitespace();
    let mut command = Command::new(words.next().unwrap_or(usual));
    command.args(words);
    command
}

fn run(mut command: Command, advice: &str) -> Result<(), String> {
    let name = command.get_program().to_string_lossy().into_owned();
    match command.status() {
        Ok(status) if status.success() => Ok(()),
        Ok(status) => Err(format!("{name} failed, {status}")),
        Err(error) => Err(format!("{name} does not run ({error}): {advice}")),
    }
}

/// The first approximations of 1 ÷ √m, with 16 digits behind the point, in C:
/// for m from 2 up to 4, then for m from 1 up to 2, each in 64 equal parts. The
/// one whose largest relative error over a part is least is 2 ÷ (√low + √high).
fn reciprocals() -> String {
    let mut text = "static const uint16_t first_reciprocal[128] = {\n".to_owned();
    for (start, width) in [(2.0, 2.0 / 64.0), (1.0, 1.0 / 64.0)] {
        for part in 0..64 {
            let low: f64 = start + width * f64::from(part);
            let entry = 65_536.0 * 2.0 / (low.sqrt() + (low + width).sqrt());
            writeln!(text, "    {entry:.0},").expect("a string can be written to");
        }
    }
    text + "};\n"
}
