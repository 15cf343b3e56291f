//! Links the proved judge where PLAN_JUDGE_LIB names the directory of libjudge_c.a; without it nothing is linked, and
//! what calls the library is left out.

fn main() {
    println!("cargo:rerun-if-env-changed=PLAN_JUDGE_LIB");
    println!("cargo:rustc-check-cfg=cfg(plan_judge)");
    if let Ok(dir) = std::env::var("PLAN_JUDGE_LIB") {
        println!("cargo:rerun-if-changed={dir}/libjudge_c.a");
        println!("cargo:rustc-link-search=native={dir}");
        println!("cargo:rustc-link-lib=static=judge_c");
        println!("cargo:rustc-cfg=plan_judge");
    }
}
