//! The proved judge in threads of exactly the stack that is promised. Only with PLAN_JUDGE_LIB (see build.rs).
#![cfg(plan_judge)]
use second::testing::stack::{judge_all, long, short, Input};
use std::process::Command;

/// The stack that is enough for a text of at most 2,000 bytes, and for any.
const SHORT_STACK: usize = 128 * 1024;
const LONG_STACK: usize = 512 * 1024;

/// The variable by which a test knows that it is the child.
const CHILD: &str = "PLAN_JUDGE_STACK_CHILD";

// Judges in a child process, which runs one test of this file alone: a stack that overflows ends the process.
fn in_a_child(test: &str, inputs: fn() -> Vec<Input>, stack: usize) {
    if std::env::var_os(CHILD).is_some() {
        return judge_all(inputs(), stack);
    }
    let program = std::env::current_exe().unwrap();
    let child = Command::new(program).args(["--exact", test, "--nocapture"]).env(CHILD, "1").output().unwrap();
    let (out, err) = (String::from_utf8_lossy(&child.stdout), String::from_utf8_lossy(&child.stderr));
    assert!(child.status.success() && out.contains(" 1 passed; "), "{stack} bytes: {}\n{out}\n{err}", child.status);
}

#[test]
fn short_texts() {
    in_a_child("short_texts", short, SHORT_STACK);
}

#[test]
fn any_texts() {
    in_a_child("any_texts", long, LONG_STACK);
}
