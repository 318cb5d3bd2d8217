//! Links the product's static libraries from the folder that SF_LIB_DIR names, and those of another
//! commit from the folder that SF_EARLIER_DIR names, where it is set (scripts/earlier fills it).

use std::path::PathBuf;
use std::{env, fs};

fn main() {
    let ours = folder_in("SF_LIB_DIR").expect("SF_LIB_DIR names the folder of the libraries");
    link(&ours, ["factcheck", "cabi"]);
    let Some(earlier) = folder_in("SF_EARLIER_DIR") else {
        return;
    };
    link(&earlier, ["earlier_factcheck", "earlier_cabi"]);
    // The calls that the other commit declares as this tree does (src/libraries.rs).
    let alike = fs::read_to_string(earlier.join("alike")).expect("a file with the calls");
    for call in alike.lines() {
        println!("cargo:rustc-env=ALIKE_{call}=yes");
    }
    // Its layout: how many words a board has, and whether offers have due times.
    let layout = fs::read_to_string(earlier.join("layout")).expect("a file with the layout");
    for value in layout.lines() {
        println!("cargo:rustc-env=EARLIER_{value}");
    }
}

fn folder_in(variable: &str) -> Option<PathBuf> {
    println!("cargo:rerun-if-env-changed={variable}");
    let folder = env::var(variable).ok()?;
    Some(fs::canonicalize(folder).expect("the name of a folder"))
}

fn link(folder: &PathBuf, libraries: [&str; 2]) {
    let folder = folder.display();
    println!("cargo:rustc-link-search=native={folder}");
    for library in libraries {
        println!("cargo:rerun-if-changed={folder}/lib{library}.a");
        println!("cargo:rustc-link-lib=static={library}");
    }
}
