//! Links libeco32.a from the directory that ECO32_LIB_DIR names.

fn main() {
    println!("cargo:rerun-if-env-changed=ECO32_LIB_DIR");
    let Ok(directory) = std::env::var("ECO32_LIB_DIR") else {
        eprintln!("ECO32_LIB_DIR must name the directory of libeco32.a");
        std::process::exit(1);
    };
    println!("cargo:rerun-if-changed={directory}/libeco32.a");
    println!("cargo:rustc-link-search=native={directory}");
    println!("cargo:rustc-link-lib=static=eco32");
    // The archive's code may be for a fixed place in memory.
    println!("cargo:rustc-link-arg-bins=-no-pie");
}
