//! Links the library: `SIP_LIB` is the folder of `libsip.a`, where it is not one of the system's.

fn main() {
    println!("cargo:rerun-if-env-changed=SIP_LIB");
    if let Ok(folder) = std::env::var("SIP_LIB") {
        println!("cargo:rustc-link-search=native={folder}");
        println!("cargo:rerun-if-changed={folder}/libsip.a");
    }
    println!("cargo:rustc-link-lib=static=sip");
}
