//! Links the static libraries of gateway and kiosk that `./build.sh` writes. VULZEGAN_TARGET names the folder that it builds into.

fn main() {
    let target = std::env::var("VULZEGAN_TARGET").expect("VULZEGAN_TARGET names the folder that ./build.sh builds into");
    println!("cargo:rerun-if-env-changed=VULZEGAN_TARGET");
    println!("cargo:rustc-link-search=native={target}/staticlib");
    for library in ["gateway", "kiosk"] {
        println!("cargo:rerun-if-changed={target}/staticlib/lib{library}.a");
        println!("cargo:rustc-link-lib=static={library}");
    }
}
