//! Says where libpersist is: under the prefix that PERSIST_LIBRARY names, or else under /usr/local.
fn main() {
    let prefix = std::env::var("PERSIST_LIBRARY").unwrap_or_else(|_| "/usr/local".into());
    println!("cargo:rustc-link-search=native={prefix}/lib");
    println!("cargo:rustc-link-lib=static=persist");
    println!("cargo:rerun-if-env-changed=PERSIST_LIBRARY");
    println!("cargo:rerun-if-changed={prefix}/lib/libpersist.a");
}
