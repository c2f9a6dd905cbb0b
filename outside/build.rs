// The timing programs and the hosts link the proved libraries, where outside/build has put them.
fn main() {
    let archive = concat!(env!("CARGO_MANIFEST_DIR"), "/../target/staticlib");
    println!("cargo:rustc-link-search=native={archive}");
    for library in ["monitor", "number_timing", "wire"] {
        println!("cargo:rerun-if-changed={archive}/lib{library}.a");
    }
}
