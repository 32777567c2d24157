//! Instructions of the host, counted by callgrind where valgrind is installed.

use std::process::Command;

/// Instructions of all calls of a function while this program runs with these words; None where valgrind is not here.
pub fn instructions(function: &str, words: &[&str]) -> Option<f64> {
    let collect = format!("--toggle-collect={function}");
    let out = Command::new("valgrind")
        .args(["--tool=callgrind", "--callgrind-out-file=/dev/null", &collect])
        .arg(std::env::current_exe().expect("this program"))
        .args(words)
        .output()
        .ok()?;
    let said = String::from_utf8_lossy(&out.stderr).into_owned();
    let line = said.lines().find(|line| line.contains("Collected"))?;
    line.rsplit(' ').next()?.parse().ok()
}
