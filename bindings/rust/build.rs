// Links libfedbundle.a of the folder that FEDBUNDLE_LIB_DIR names, or else where the linker finds it.
fn main() {
    println!("cargo:rerun-if-env-changed=FEDBUNDLE_LIB_DIR");
    if let Ok(folder) = std::env::var("FEDBUNDLE_LIB_DIR") {
        println!("cargo:rustc-link-search=native={folder}");
        println!("cargo:rerun-if-changed={folder}/libfedbundle.a");
    }
    println!("cargo:rustc-link-lib=static=fedbundle");
}
