//! Tells the linker where the proved library lies, when the feature `compare`
//! asks for it. An ordinary build needs no library.

use std::env;

fn main() {
    println!("cargo:rerun-if-env-changed=KNUCKLEPIN_LIB_DIR");
    println!("cargo:rerun-if-env-changed=KNUCKLEPIN_LIB_NAME");
    if env::var_os("CARGO_FEATURE_COMPARE").is_none() {
        return;
    }
    let directory = env::var("KNUCKLEPIN_LIB_DIR")
        .expect("KNUCKLEPIN_LIB_DIR must name the folder of the static library");
    let name = env::var("KNUCKLEPIN_LIB_NAME").unwrap_or_else(|_| "knucklepin".into());
    println!("cargo:rerun-if-changed={directory}/lib{name}.a");
    println!("cargo:rustc-link-search=native={directory}");
    println!("cargo:rustc-link-lib=static={name}");
}
