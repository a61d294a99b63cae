//! Says where `./chaffwheel install DIR` put the library: CHAFFWHEEL_LIB is DIR/lib.
fn main() {
    println!("cargo:rerun-if-env-changed=CHAFFWHEEL_LIB");
    if let Ok(folder) = std::env::var("CHAFFWHEEL_LIB") {
        println!("cargo:rustc-link-search=native={folder}");
    }
    println!("cargo:rustc-link-lib=static=chaffwheel");
}
