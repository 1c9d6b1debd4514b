//! Links the product when `RACECHECK_LIB_DIR` names the folder of `libentries.a`.
//! Without it the cfg `product` is off, and what needs the product fails.

fn main() {
    println!("cargo:rustc-check-cfg=cfg(product)");
    println!("cargo:rerun-if-env-changed=RACECHECK_LIB_DIR");
    if let Ok(folder) = std::env::var("RACECHECK_LIB_DIR") {
        println!("cargo:rustc-cfg=product");
        println!("cargo:rustc-link-search=native={folder}");
        println!("cargo:rustc-link-lib=static=entries");
        println!("cargo:rerun-if-changed={folder}/libentries.a");
    }
}
