//! Where and when it was measured.

use std::fs;
use std::process::Command;

pub fn uname() -> String {
    output("uname", &["-nsrm"])
}

pub fn date() -> String {
    output("date", &["-u", "+%Y-%m-%d %H:%M UTC"])
}

/// The first model name that the kernel reports.
pub fn cpu() -> String {
    let cpuinfo = fs::read_to_string("/proc/cpuinfo").unwrap_or_default();
    let line = cpuinfo.lines().find(|line| line.starts_with("model name"));
    let model = line.and_then(|line| line.split(": ").nth(1));
    model.unwrap_or("unknown").to_string()
}

fn output(program: &str, options: &[&str]) -> String {
    match Command::new(program).args(options).output() {
        Ok(output) => String::from_utf8_lossy(&output.stdout).trim().to_string(),
        Err(_) => "unknown".to_string(),
    }
}
