//! With the feature `engine`, says where the archive of the proved engine lies. The link line itself stands in `src/foreign.rs`, so
//! that only the two binaries link it.

use std::env;

fn main() {
    println!("cargo:rerun-if-env-changed=PEWTERSLUG_LIB");
    if env::var_os("CARGO_FEATURE_ENGINE").is_none() {
        return;
    }
    match env::var("PEWTERSLUG_LIB") {
        Ok(directory) => {
            println!("cargo:rustc-link-search=native={directory}");
            println!("cargo:rerun-if-changed={directory}/libpewterslug.a");
        }
        Err(_) => println!("cargo:warning=PEWTERSLUG_LIB is not set: libpewterslug.a may not be found"),
    }
}
