//! Links the archive libach_c.a, which is looked for in the directory named by ACH_LIB_DIR, or
//! else in the repository's target/staticlib. A relative name counts from this crate.

use std::env;
use std::path::Path;

fn main() {
    let here = env::var("CARGO_MANIFEST_DIR").expect("cargo names the crate's directory");
    let named = env::var("ACH_LIB_DIR").unwrap_or_else(|_| "../../target/staticlib".into());
    let directory = Path::new(&here).join(named);
    println!("cargo:rerun-if-env-changed=ACH_LIB_DIR");
    println!("cargo:rerun-if-changed={}", directory.join("libach_c.a").display());
    println!("cargo:rustc-link-search=native={}", directory.display());
    // Not bundled, so that the crate compiles before the archive is there.
    println!("cargo:rustc-link-lib=static:-bundle=ach_c");
}
