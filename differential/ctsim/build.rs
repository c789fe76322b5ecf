//! Lays out the original program in OUT_DIR: a link to each published file, an empty file for each module that is
//! declared and not published, and `tree.rs`, which names the modules. No file of the program is copied or changed.

use std::path::{Path, PathBuf};
use std::{env, fs};

/// The published files, by their place under src/.
const FILES: [&str; 13] = [
    "config.rs",
    "event.rs",
    "metrics.rs",
    "network.rs",
    "node.rs",
    "phy/ce.rs",
    "phy/ci.rs",
    "phy/mod.rs",
    "protocol/mod.rs",
    "protocol/two_pc_ce.rs",
    "protocol/two_pc_pipeline.rs",
    "sim/pipeline.rs",
    "sim/two_pc_pipeline.rs",
];

/// Declared in protocol/mod.rs and not published; nothing that is published uses them.
const EMPTY: [&str; 4] = [
    "protocol/paxos.rs",
    "protocol/paxos_ce.rs",
    "protocol/tom.rs",
    "protocol/tom_ce.rs",
];

/// Not published itself: sim.rs. Only the two of its modules that are.
const TOP: [&str; 7] = ["config", "event", "metrics", "network", "node", "phy", "protocol"];

fn find(root: &Path, file: &str) -> PathBuf {
    let flat = format!("src--src--{}.txt", file.replace('/', "--"));
    let tried = [
        root.join("src").join(file),
        root.join(file),
        root.join(&flat),
        root.join("..").join(&flat),
    ];
    for p in &tried {
        if p.is_file() {
            return fs::canonicalize(p).expect("a file that is there has a path");
        }
    }
    panic!(
        "the original program's {file} is not under {}: lay its files there, or name their folder in CTSIM_SRC",
        root.display()
    );
}

fn main() {
    println!("cargo:rerun-if-env-changed=CTSIM_SRC");
    println!("cargo:rerun-if-changed=build.rs");
    let here = PathBuf::from(env::var_os("CARGO_MANIFEST_DIR").unwrap());
    let root = match env::var_os("CTSIM_SRC") {
        Some(p) => PathBuf::from(p),
        None => here.join("../../../shared/docs/src"),
    };
    let out = PathBuf::from(env::var_os("OUT_DIR").unwrap());
    let tree = out.join("tree");
    if tree.exists() {
        fs::remove_dir_all(&tree).unwrap();
    }
    for folder in ["phy", "protocol", "sim"] {
        fs::create_dir_all(tree.join(folder)).unwrap();
    }

    // A fingerprint (FNV-1a, 64 bits) of all the files in this order: the harness prints it.
    let mut print: u64 = 0xcbf29ce484222325;
    let mut lines = 0;
    for file in FILES {
        let from = find(&root, file);
        println!("cargo:rerun-if-changed={}", from.display());
        let text = fs::read(&from).unwrap();
        for b in &text {
            print = (print ^ *b as u64).wrapping_mul(0x100000001b3);
        }
        lines += text.iter().filter(|b| **b == b'\n').count();
        std::os::unix::fs::symlink(&from, tree.join(file)).unwrap();
    }
    for file in EMPTY {
        fs::write(tree.join(file), "").unwrap();
    }

    let mut text = String::new();
    for m in TOP {
        let file = if tree.join(m).is_dir() {
            format!("{m}/mod.rs")
        } else {
            format!("{m}.rs")
        };
        text += &format!("#[path = {:?}]\npub mod {m};\n", tree.join(file));
    }
    text += "pub mod sim {\n";
    for m in ["pipeline", "two_pc_pipeline"] {
        let file = tree.join(format!("sim/{m}.rs"));
        text += &format!("    #[path = {file:?}]\n    pub mod {m};\n");
    }
    text += "}\n";
    text += &format!(
        "pub const SOURCE: &str = \"{} files, {lines} lines, fingerprint {print:016x}\";\n",
        FILES.len()
    );
    fs::write(out.join("tree.rs"), text).unwrap();
}
