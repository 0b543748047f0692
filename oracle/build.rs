//! Three originals have private items that the comparison needs. Each is
//! copied to the build folder byte for byte, with one declaration behind it: a
//! child module, which may see its parent's private items. The child's text is
//! in src/reach/. All other originals are compiled where they lie.

use std::path::{Path, PathBuf};
use std::{env, fs};

/// The originals with private items, below the kernel's folder.
const REACHED: [&str; 3] = ["point_block", "two_view/schur", "two_view/optimizer"];

fn main() {
    let root = PathBuf::from(env::var_os("CARGO_MANIFEST_DIR").expect("set by cargo"));
    let out = PathBuf::from(env::var_os("OUT_DIR").expect("set by cargo"));
    for path in REACHED {
        let name = path.rsplit('/').next().expect("a path has a last part");
        let original = root
            .join("original/crates/openmvg-ba/src/kernel")
            .join(path)
            .with_extension("rs");
        let reach = root.join("src/reach").join(name).with_extension("rs");
        extend(&original, &reach, &out.join(name).with_extension("rs"));
        declare(name, &out);
    }
    println!("cargo::rerun-if-changed=build.rs");
}

/// Writes `target`: the bytes of `original`, then the child module's declaration.
fn extend(original: &Path, reach: &Path, target: &Path) {
    let mut text = fs::read(original).expect("the original can be read");
    text.extend_from_slice(format!("\n#[path = {:?}]\npub(crate) mod reach;\n", reach).as_bytes());
    fs::write(target, text).expect("the build folder can be written");
    println!("cargo::rerun-if-changed={}", original.display());
}

/// Writes `NAME_mod.rs`, which declares the extended file as a module. The
/// parent module includes it, since a path attribute takes no variable.
fn declare(name: &str, out: &Path) {
    let file = out.join(name).with_extension("rs");
    let text = format!("#[allow(dead_code)]\n#[path = {file:?}]\npub(crate) mod {name};\n");
    fs::write(out.join(format!("{name}_mod.rs")), text).expect("the build folder can be written");
}
