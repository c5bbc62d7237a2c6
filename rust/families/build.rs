//! Links the static library `libfamilies.a` from the folder in FAMILIES_LIB.

use std::env;
use std::path::Path;

fn main() {
    println!("cargo:rerun-if-env-changed=FAMILIES_LIB");
    let folder = env::var("FAMILIES_LIB")
        .expect("FAMILIES_LIB must name the folder that holds libfamilies.a, as an absolute path");
    let library = Path::new(&folder).join("libfamilies.a");
    assert!(library.is_file(), "{} is not there", library.display());
    println!("cargo:rerun-if-changed={}", library.display());
    println!("cargo:rustc-link-search=native={folder}");
    println!("cargo:rustc-link-lib=static=families");
}
