//! Instructions by callgrind: they do not depend on what else the machine does.

use std::process::Command;

/// How many instructions the timed part of a row takes.
pub fn of(router: &str, row: usize) -> u64 {
    let me = std::env::current_exe().expect("the program's own path");
    let ran = Command::new("valgrind")
        .args([
            "--tool=callgrind",
            "--toggle-collect=bench_timed",
            "--callgrind-out-file=/dev/null",
        ])
        .arg(me)
        .args(["--one", router, &row.to_string()])
        .output()
        .expect("valgrind runs");
    let said = String::from_utf8_lossy(&ran.stderr);
    said.lines()
        .find_map(|line| line.split("Collected :").nth(1))
        .and_then(|count| count.trim().parse().ok())
        .unwrap_or_else(|| panic!("valgrind gave no count: {said}"))
}
