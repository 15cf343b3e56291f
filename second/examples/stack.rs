//! The stack that a judging needs: the smallest, in steps of 4 KB, with which a thread judges each of some texts.

// Without the library there is nothing to judge by.
#[cfg(not(plan_judge))]
fn main() {
    eprintln!("PLAN_JUDGE_LIB names the directory of libjudge_c.a");
    std::process::exit(2);
}

#[cfg(plan_judge)]
fn main() {
    needed::main();
}

#[cfg(plan_judge)]
mod needed {
    use second::testing::stack::{judge_all, long, short, SHORT_BYTES};
    use std::process::{Command, Stdio};

    const STEP: usize = 4;
    const LARGEST: usize = 2_048;

    // Prints what is needed; as a child, with a group and a stack in KB, judges with that much.
    pub fn main() {
        let arguments: Vec<String> = std::env::args().skip(1).collect();
        match arguments.iter().map(String::as_str).collect::<Vec<_>>()[..] {
            ["short", kb] => judge_all(short(), 1_024 * kb.parse::<usize>().unwrap()),
            ["long", kb] => judge_all(long(), 1_024 * kb.parse::<usize>().unwrap()),
            _ => print(),
        }
    }

    // Whether so many KB are enough for a group, tried in a process of its own.
    fn enough(group: &str, kb: usize) -> bool {
        let program = std::env::current_exe().unwrap();
        let child = Command::new(program).args([group, &kb.to_string()]).stderr(Stdio::null()).status();
        child.unwrap().success()
    }

    // The fewest KB that are enough for a group.
    fn fewest(group: &str) -> String {
        let sizes: Vec<usize> = (STEP..=LARGEST).step_by(STEP).collect();
        let at = sizes.partition_point(|kb| !enough(group, *kb));
        sizes.get(at).map_or(format!("more than {LARGEST}"), usize::to_string)
    }

    // What each group needs.
    fn print() {
        println!("texts of at most {SHORT_BYTES} bytes: {} KB", fewest("short"));
        println!("any texts: {} KB", fewest("long"));
    }
}
