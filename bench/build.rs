//! Where the two archives are.

fn main() {
    for name in ["jisampode", "bench_host"] {
        println!("cargo:rerun-if-changed=../target/staticlib/lib{name}.a");
    }
    println!("cargo:rustc-link-search=native=../target/staticlib");
}
