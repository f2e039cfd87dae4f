//! Says where the library is: under the prefix that `crates/luthrady/install` was given.

use std::env;

fn main() {
    println!("cargo::rerun-if-env-changed=LUTHRADY_PREFIX");
    let Ok(prefix) = env::var("LUTHRADY_PREFIX") else {
        println!("cargo::warning=LUTHRADY_PREFIX is not set: a program finds no library");
        return;
    };
    println!("cargo::rustc-link-search=native={prefix}/lib");
    println!("cargo::rustc-link-lib=static=luthrady");
    println!("cargo::rustc-link-lib=static=luthrady_c");
}
