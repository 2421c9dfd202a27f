//! Links the archive libfirnuubal.a: from the folder that FIRNUUBAL_LIB names, from `lib` of a packaged crate, from
//! `bindings/out`, where `bindings/build.sh` leaves it, or from `dist`, where it is shipped.

use std::env;
use std::path::PathBuf;

const ARCHIVE: &str = "libfirnuubal.a";

fn main() {
    println!("cargo:rerun-if-env-changed=FIRNUUBAL_LIB");
    let here = PathBuf::from(env::var_os("CARGO_MANIFEST_DIR").unwrap());
    let folders = match env::var_os("FIRNUUBAL_LIB") {
        Some(folder) => vec![PathBuf::from(folder)],
        None => ["lib", "../out", "../../dist"].map(|folder| here.join(folder)).to_vec(),
    };
    let Some(folder) = folders.iter().find(|folder| folder.join(ARCHIVE).is_file()) else {
        panic!("{ARCHIVE} is in none of {folders:?}: run bindings/build.sh, or set FIRNUUBAL_LIB");
    };
    println!("cargo:rustc-link-search=native={}", folder.display());
    println!("cargo:rustc-link-lib=static=firnuubal");
    println!("cargo:rerun-if-changed={}", folder.join(ARCHIVE).display());
}
