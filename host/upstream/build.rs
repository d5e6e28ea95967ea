//! Copies the supplied Rust into the build folder. Five files are taken whole and unchanged; of
//! props.rs and meta.rs, which lean on files that are not supplied, only the items that mini.rs uses.

use std::fs;
use std::path::{Path, PathBuf};

/// The supplied Rust, from the repository's root.
const SOURCE: &str = "../shared/docs/src/src";

const WHOLE: [&str; 5] = ["boxes", "error", "ftyp", "mini", "vvcc"];

/// A file of which only items are taken: its own lines first, then the items' first lines.
struct Part {
    name: &'static str,
    head: &'static str,
    items: &'static [&'static str],
}

const PARTS: [Part; 2] = [
    Part {
        name: "props",
        head: "",
        items: &["pub const AUX_URN_ALPHA: ", "pub(crate) fn cclv_body_len("],
    },
    Part {
        name: "meta",
        head: "use crate::boxes::FourCc;\n",
        items: &["pub const ITEM_TYPE_VVC1: "],
    },
];

fn main() {
    let root = PathBuf::from(env("CARGO_MANIFEST_DIR")).join("../..");
    let source = root.join(SOURCE);
    let out = PathBuf::from(env("OUT_DIR"));
    let mut modules = String::new();
    for name in WHOLE {
        fs::write(out.join(file(name)), read(&source, name)).expect("write a copy");
        modules += &module(&out, name);
    }
    for part in PARTS {
        let text = read(&source, part.name);
        let items: Vec<&str> = part.items.iter().map(|i| cut(&text, i)).collect();
        let cut_text = part.head.to_string() + &items.join("\n");
        fs::write(out.join(file(part.name)), cut_text).expect("write a part");
        modules += &module(&out, part.name);
    }
    fs::write(out.join("modules.rs"), modules).expect("write the list of modules");
    // error.rs asks for a feature of the whole crate, which is off here.
    println!("cargo::rustc-check-cfg=cfg(feature, values(\"registry\"))");
    println!("cargo::rerun-if-changed=build.rs");
}

fn env(name: &str) -> String {
    std::env::var(name).unwrap_or_else(|_| panic!("{name} is not set"))
}

fn file(name: &str) -> String {
    format!("{name}.rs")
}

fn module(out: &Path, name: &str) -> String {
    let path = out.join(file(name));
    format!("#[allow(dead_code)]\n#[path = {path:?}]\npub mod {name};\n")
}

fn read(source: &Path, name: &str) -> String {
    let path = source.join(file(name));
    println!("cargo::rerun-if-changed={}", path.display());
    fs::read_to_string(&path).unwrap_or_else(|e| panic!("{SOURCE}/{name}.rs: {e}"))
}

/// The one item of `text` whose first line begins with `start`: a constant up to the end of its
/// line, a function up to the closing brace in the first column.
fn cut<'a>(text: &'a str, start: &str) -> &'a str {
    let mut places = text.match_indices(start).map(|(at, _)| at);
    let at = places
        .find(|&at| at == 0 || text.as_bytes()[at - 1] == b'\n')
        .unwrap_or_else(|| panic!("no item begins with '{start}'"));
    let end = if start.contains("fn ") {
        "\n}\n"
    } else {
        ";\n"
    };
    let len = text[at..]
        .find(end)
        .unwrap_or_else(|| panic!("the item '{start}' has no end"));
    let item = &text[at..at + len + end.len()];
    assert!(
        start.contains("fn ") || item.lines().count() == 1,
        "the constant '{start}' takes more than a line"
    );
    item
}
