//! Links the project's static library `libdvbs.a`, and `libdvbs_bridge.a` and
//! `libkernels.a` where they are there, from the folder named by the environment
//! variable EXPORTS_DIR.
//! Without it (or with the feature `self`) nothing is linked, and the tests of the
//! reference still run.

fn main() {
    println!("cargo:rerun-if-env-changed=EXPORTS_DIR");
    let own = std::env::var_os("CARGO_FEATURE_SELF").is_some();
    match std::env::var("EXPORTS_DIR") {
        Ok(folder) if !own && !folder.is_empty() => {
            println!("cargo:rerun-if-changed={folder}/libdvbs.a");
            println!("cargo:rustc-link-search=native={folder}");
            println!("cargo:rustc-link-lib=static=dvbs");
            println!("cargo:rustc-cfg=exports_linked");
            println!("cargo:rerun-if-changed={folder}/libdvbs_bridge.a");
            if std::path::Path::new(&folder).join("libdvbs_bridge.a").exists() {
                println!("cargo:rustc-link-lib=static=dvbs_bridge");
                println!("cargo:rustc-cfg=bridge_linked");
            }
            println!("cargo:rerun-if-changed={folder}/libkernels.a");
            if std::path::Path::new(&folder).join("libkernels.a").exists() {
                println!("cargo:rustc-link-lib=static=kernels");
                println!("cargo:rustc-cfg=kernels_linked");
            }
        }
        _ => {}
    }
}
