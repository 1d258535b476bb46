//! Links libvairolent.a, from the folder that VAIROLENT_LIBRARY names or from target/library. A
//! relative path counts from this package.

use std::env;
use std::path::Path;
use std::process::exit;

const VARIABLE: &str = "VAIROLENT_LIBRARY";
const DEFAULT: &str = "../../target/library";

fn main() {
    println!("cargo:rerun-if-env-changed={VARIABLE}");
    let folder = env::var_os(VARIABLE).unwrap_or_else(|| DEFAULT.into());
    let folder = Path::new(env!("CARGO_MANIFEST_DIR")).join(folder);
    let archive = folder.join("libvairolent.a");
    println!("cargo:rerun-if-changed={}", archive.display());
    if !archive.is_file() {
        let archive = archive.display();
        eprintln!("vairolent: no {archive}: run tools/build-library, or set {VARIABLE}");
        exit(1);
    }
    println!("cargo:rustc-link-search=native={}", folder.display());
    println!("cargo:rustc-link-lib=static=vairolent");
}
