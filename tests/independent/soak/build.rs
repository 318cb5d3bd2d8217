//! Links the program with the product's static libraries from the folder that SF_LIB_DIR names. The
//! unit tests need none, so that without a folder nothing is linked.

use std::{env, fs};

const LIBRARIES: [&str; 2] = ["factcheck", "cabi"];

fn main() {
    println!("cargo:rerun-if-env-changed=SF_LIB_DIR");
    let Ok(folder) = env::var("SF_LIB_DIR") else {
        return;
    };
    let folder = fs::canonicalize(folder).expect("SF_LIB_DIR names a folder");
    for library in LIBRARIES {
        let file = folder.join(format!("lib{library}.a"));
        let file = file.display();
        println!("cargo:rerun-if-changed={file}");
        println!("cargo:rustc-link-arg-bins={file}");
    }
}
