//! Writes a copy of `proximity.rs` that shows its private buffers and counts its sweeps.
//!
//! The copy differs from the unchanged file in two places: one line at the head of `fn sweep`, and
//! `probe.rs` at its end. It goes to Cargo's output folder, with a file that names it as a module.

use std::{env, fs, path::Path};

const UNCHANGED: &str = "broodmap/broodmap-analysis/src/bases/proximity.rs";
const PROBE: &str = "probe.rs";
const SWEEP_HEAD: &str = "    fn sweep<const DOWN: bool>(&mut self) -> bool {\n";
const SWEEP_COUNTED: &str = "        SWEEPS.set(SWEEPS.get() + 1);\n";

/// `half_cost` and `at` are read from the unchanged copy, so the probed one leaves them unused.
const MODULE: &str = "#[allow(dead_code)]\n#[path = \"probed.rs\"]\nmod probed;\n";

fn main() {
    println!("cargo::rerun-if-changed=build.rs");
    println!("cargo::rerun-if-changed={UNCHANGED}");
    println!("cargo::rerun-if-changed={PROBE}");

    let unchanged = fs::read_to_string(UNCHANGED).expect("the unchanged proximity.rs");
    let probe = fs::read_to_string(PROBE).expect("the probe");
    assert_eq!(
        unchanged.matches(SWEEP_HEAD).count(),
        1,
        "the head of `fn sweep` must occur exactly once in {UNCHANGED}"
    );
    let counted = unchanged.replace(SWEEP_HEAD, &format!("{SWEEP_HEAD}{SWEEP_COUNTED}"));

    let output = env::var("OUT_DIR").expect("Cargo names the output folder");
    let output = Path::new(&output);
    fs::write(output.join("probed.rs"), format!("{counted}\n{probe}")).expect("the probed copy");
    fs::write(output.join("probed_module.rs"), MODULE).expect("the probed copy's module");
}
