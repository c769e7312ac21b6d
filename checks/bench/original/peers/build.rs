//! With the feature `unlocked`, links the port's static library, which RATTLE_LIB names, and the C
//! part of its kit's `libc`, which RATTLE_HEAP names.

fn main() {
    if std::env::var_os("CARGO_FEATURE_UNLOCKED").is_none() {
        return;
    }
    for name in ["RATTLE_LIB", "RATTLE_HEAP"] {
        println!("cargo:rerun-if-env-changed={name}");
        let file = std::env::var(name).unwrap_or_else(|_| panic!("{name} names no file"));
        println!("cargo:rerun-if-changed={file}");
        println!("cargo:rustc-link-arg-bins={file}");
    }
}
