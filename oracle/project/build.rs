//! With the feature `port` the archive of crates/bench, `libbench.a` in the folder
//! that `PORT` names, is linked beside the original; the crate `murm` links that of
//! crates/murm_c_c, `libmurm_c.a`.

use std::env;

fn main() {
    println!("cargo:rerun-if-env-changed=PORT");
    if env::var_os("CARGO_FEATURE_PORT").is_none() {
        return;
    }
    let port = env::var("PORT").expect("PORT is the folder of the port's archives");
    println!("cargo:rustc-link-search=native={port}");
    println!("cargo:rerun-if-changed={port}/libbench.a");
    println!("cargo:rustc-link-lib=static=bench");
}
