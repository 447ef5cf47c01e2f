//! Links the static library: `libcapi.a`, a copy of what `rt lib` makes of `capi_c`, or `libkorbishaf.a`, as
//! `./install` names it. It is looked for in the folder that the environment variable `KORBISHAF_LIB_DIR` names, and
//! only there, where that is set; else in the repository's `target/staticlib`, and then, if this crate is one that
//! `./install` has put under a prefix, in the `lib` of that prefix. A relative path counts from this crate's folder.

use std::env;
use std::path::PathBuf;

const BUILT: &str = "../../target/staticlib";
const INSTALLED: &str = "../../../../lib";

fn main() {
    let crate_folder = env::var_os("CARGO_MANIFEST_DIR").expect("cargo sets CARGO_MANIFEST_DIR");
    let crate_folder = PathBuf::from(crate_folder);
    let folders = match env::var_os("KORBISHAF_LIB_DIR") {
        Some(named) => vec![named.into()],
        None if crate_folder.ends_with("share/korbishaf/rust/korbishaf") => {
            vec![PathBuf::from(BUILT), PathBuf::from(INSTALLED)]
        }
        None => vec![PathBuf::from(BUILT)],
    };
    let places: Vec<_> = folders
        .iter()
        .flat_map(|folder| ["capi", "korbishaf"].map(|name| (crate_folder.join(folder), name)))
        .collect();
    let found = places
        .iter()
        .find(|(folder, name)| folder.join(format!("lib{name}.a")).is_file());
    let (folder, name) = found.unwrap_or(&places[0]);
    let library = folder.join(format!("lib{name}.a"));
    println!("cargo::rerun-if-env-changed=KORBISHAF_LIB_DIR");
    println!("cargo::rerun-if-changed={}", library.display());
    println!("cargo::rustc-link-search=native={}", folder.display());
    println!("cargo::rustc-link-lib=static={name}");
    if found.is_none() {
        println!(
            "cargo::warning={} is absent: make it with `tools/staticlib`, or name its folder in KORBISHAF_LIB_DIR",
            library.display()
        );
    }
}
