//! Instructions of a call, counted by callgrind where valgrind is there.
use crate::cases::{Case, Kind};
use std::env;
use std::process::{Command, Stdio};

/// The function whose instructions are counted, those that it calls among them.
fn function(case: &Case) -> String {
    match case.kind {
        Kind::Check => "probe_sound".to_string(),
        Kind::Blocked(_) => "window_lock".to_string(),
        Kind::Refused(_) => "window_read".to_string(),
        Kind::Done(_) => format!("window_{}", case.name()),
    }
}

pub fn available() -> bool {
    let version = Command::new("valgrind").arg("--version").stdout(Stdio::null()).stderr(Stdio::null()).status();
    version.is_ok_and(|status| status.success())
}

/// Runs this program again, to make one call of a set's.
pub fn count(set: &str, case: &Case) -> Option<u64> {
    let output = Command::new("valgrind")
        .args(["--tool=callgrind", "--callgrind-out-file=/dev/null"])
        .arg(format!("--toggle-collect={}", function(case)))
        .arg(env::current_exe().ok()?)
        .args(["once", set, case.name()])
        .output()
        .ok()?;
    let text = String::from_utf8_lossy(&output.stderr).into_owned();
    let collected = text.lines().find_map(|line| line.split("Collected :").nth(1))?;
    collected.trim().parse().ok()
}
