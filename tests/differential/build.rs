//! Copies the oracle's eight files, unchanged, out of `TURING_SRC` into `OUT_DIR`, writes the
//! module declarations for them, and prints the link lines for the port's library. A file whose
//! digest is not the pinned one ends the build.

#[path = "sha256.rs"]
mod sha256;

use std::path::{Path, PathBuf};
use std::{env, fs};

/// The eight files, all of them the customer's, with their SHA-256.
const FILES: [(&str, &str); 8] = [
    ("symbol", "4161d7c3b67d3e5e6c591b1bb171056cd305d8c284e94427f6dd73bbc16607a0"),
    ("outcome", "effc53c87a5a8888586425146ada7a52690ba9f8ef681f801fe9a948b80f1748"),
    ("alphabet", "dc5f8cf34158a8b326523c6bc4a8e74394d026738fe347dadea25ce9ab9099a5"),
    ("machine", "2dcd256a92960db7038486829faeff9161c82d299689fa7d35b53e5ccb8a27ad"),
    ("tape", "6d72fd24f19d9a1008f794eace9d4fc2ed430bf93cfcad54e8a851906945f86f"),
    ("sim", "869cf9cbd22d6f5923084aefcbbff1028a9b2523e21d2f53dceed69ab6bae252"),
    ("rle", "87f43d4ea761c520e24019318ca3300a752109c452b2f897b5f02f1f0496426a"),
    ("checkpoint", "4829a405a79b77da131c027f15a43afe214dc6865794d9affc8bc06c4ded9bce"),
];

/// `Alphabet` keeps its fields to its own module and has no constructor for more than 64
/// symbols, or for glyphs given twice. So its file becomes the body of an inline module, with this one below it.
const ALPHABET_DOOR: &str = r#"
    pub(crate) mod door {
        /// An alphabet of `k` symbols, whatever `MAX_SYMBOLS` says.
        pub(crate) fn alphabet(k: usize) -> super::Alphabet {
            let glyph = |i: usize| char::from_u32(0x100 + i as u32).unwrap();
            super::Alphabet {
                glyphs: (0..k).map(glyph).collect(),
                input: (0..k).map(|i| i > 0).collect(),
            }
        }

        /// An alphabet of these glyphs and flags, whatever they are.
        pub(crate) fn any(glyphs: Vec<char>, input: Vec<bool>) -> super::Alphabet {
            super::Alphabet { glyphs, input }
        }
    }
"#;

/// The number in `Packed` is private to its file.
const MACHINE_DOOR: &str = r#"
    pub(crate) mod door {
        /// Any word.
        pub(crate) fn packed(word: u64) -> super::Packed {
            super::Packed(word)
        }

        /// The word inside.
        pub(crate) fn word(packed: super::Packed) -> u64 {
            packed.0
        }
    }
"#;

fn main() {
    let package = PathBuf::from(env::var("CARGO_MANIFEST_DIR").unwrap());
    let out = PathBuf::from(env::var("OUT_DIR").unwrap());
    println!("cargo:rerun-if-changed=build.rs");
    println!("cargo:rerun-if-changed=sha256.rs");
    // The oracle asks for a feature that this package does not have.
    println!("cargo:rustc-check-cfg=cfg(feature, values(\"serde\"))");
    oracle(&package, &out);
    if env::var("CARGO_FEATURE_MOCK").is_err() {
        link(&package);
    }
}

/// The folder that the environment variable `name` gives, or the default beside the package.
fn folder(package: &Path, name: &str, default: &str) -> PathBuf {
    println!("cargo:rerun-if-env-changed={name}");
    match env::var(name) {
        Ok(path) if !path.is_empty() => PathBuf::from(path),
        _ => package.join(default),
    }
}

/// The text of one of the eight files, whose digest must be the pinned one.
fn pinned(source: &Path, digest: &str) -> String {
    println!("cargo:rerun-if-changed={}", source.display());
    let text = fs::read_to_string(source).unwrap_or_else(|e| panic!("{}: {e} (set TURING_SRC)", source.display()));
    let found = sha256::hex(text.as_bytes());
    assert!(
        found == digest,
        "{} is not the file that the port is compared with: its SHA-256 is {found}, the pinned one (build.rs) is {digest}",
        source.display()
    );
    text
}

fn oracle(package: &Path, out: &Path) {
    let from = folder(package, "TURING_SRC", "../../../shared/docs/src/crates/turing-core/src");
    let to = out.join("turing-core");
    fs::create_dir_all(&to).unwrap();
    let mut root = String::new();
    for (name, digest) in FILES {
        let text = pinned(&from.join(format!("{name}.rs")), digest);
        root += "#[allow(dead_code, clippy::all)]\n";
        let door = match name {
            "alphabet" => ALPHABET_DOOR,
            "machine" => MACHINE_DOOR,
            _ => "",
        };
        if door.is_empty() {
            let copy = to.join(format!("{name}.rs"));
            fs::write(&copy, &text).unwrap();
            root += &format!("#[path = {:?}]\npub mod {name};\n", copy.display().to_string());
        } else {
            root += &format!("pub mod {name} {{\n{text}\n{door}}}\n");
        }
    }
    fs::write(out.join("oracle_modules.rs"), root).unwrap();
}

fn link(package: &Path) {
    let lib = folder(package, "PORT_LIB_DIR", "../../crates/capi/out");
    println!("cargo:rerun-if-changed={}", lib.join("libcapi.a").display());
    println!("cargo:rustc-link-search=native={}", lib.display());
    println!("cargo:rustc-link-lib=static=capi");
}
