//! The session in the README is what the command says.

mod common;

use common::{sample, Folder};
use std::os::unix::fs::symlink;
use std::path::Path;
use std::process::Command;

const README: &str = include_str!("../../../README.md");

#[test]
fn the_session_is_real() {
    let folder = Folder::new();
    symlink(sample(""), folder.path("samples")).unwrap();
    let lines: Vec<&str> = README.lines().filter_map(|line| line.strip_prefix("    ")).collect();
    let start = lines.iter().position(|line| line.starts_with("$ ach ")).unwrap();
    let session = lines[start..].split(|line| line.starts_with("let ")).next().unwrap();
    let mut said = String::new();
    for line in session {
        if let Some(command) = line.strip_prefix("$ ") {
            said += &format!("{line}\n{}", in_shell(command, &folder.path("")));
        }
    }
    assert_eq!(said.matches("$ ach ").count(), 11);
    assert_eq!(said, session.join("\n") + "\n");
}

/// What the command says on both outputs, where `ach` is the command under test.
fn in_shell(line: &str, folder: &Path) -> String {
    let ach = Path::new(env!("CARGO_BIN_EXE_ach"));
    let script = format!("exec 2>&1; ach() {{ \"$0\" \"$@\"; }}; {line}");
    let mut shell = Command::new("sh");
    let output = shell.arg("-c").arg(script).arg(ach).current_dir(folder).output().unwrap();
    String::from_utf8(output.stdout).unwrap()
}
