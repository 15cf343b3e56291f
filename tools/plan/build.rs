//! Links the proved judge: PLAN_JUDGE_LIB names the directory of libjudge_c.a. Without it nothing is built.

fn main() {
    println!("cargo:rerun-if-env-changed=PLAN_JUDGE_LIB");
    let Ok(dir) = std::env::var("PLAN_JUDGE_LIB") else {
        eprintln!("PLAN_JUDGE_LIB names no directory: it must be the one of libjudge_c.a (./plan builds it)");
        std::process::exit(1);
    };
    println!("cargo:rerun-if-changed={dir}/libjudge_c.a");
    println!("cargo:rustc-link-search=native={dir}");
    println!("cargo:rustc-link-lib=static=judge_c");
}
