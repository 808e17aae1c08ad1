//! Links the runtime of libFuzzer, which has `main`. The script `run` finds it and names it.

fn main() {
    println!("cargo:rerun-if-env-changed=FUZZ_RUNTIME");
    if let Some(runtime) = std::env::var_os("FUZZ_RUNTIME") {
        println!("cargo:rustc-link-arg-bins={}", runtime.to_string_lossy());
        println!("cargo:rustc-link-arg-bins=-lstdc++");
    }
}
