//! The stored transcripts: the lines after "$" are run by a shell, in a folder of its own for each
//! transcript, and what they print and their statuses are compared with what stands there.
//!
//! STORE=1 in the environment stores what is printed now.

mod common;

use common::folder;
use std::path::Path;
use std::process::Command;

/// The commands of a transcript. The lines of one that go on begin with ">".
fn commands(transcript: &str) -> Vec<String> {
    let mut commands: Vec<String> = Vec::new();
    for line in transcript.lines() {
        if let Some(command) = line.strip_prefix("$ ") {
            commands.push(command.to_string());
        } else if let (Some(more), Some(command)) = (line.strip_prefix("> "), commands.last_mut()) {
            *command += &format!("\n{more}");
        }
    }
    commands
}

/// What the shell prints for a command, with its status if it is not 0.
fn play(command: &str, folder: &Path) -> String {
    let program = Path::new(env!("CARGO_BIN_EXE_speldervacht")).parent().unwrap();
    let path = format!("{}:{}", program.display(), std::env::var("PATH").unwrap());
    let merged = format!("exec 2>&1\n{command}");
    let output = Command::new("sh").args(["-c", &merged]).current_dir(folder).env("PATH", path).output().unwrap();
    let mut text = format!("$ {}\n", command.replace('\n', "\n> "));
    text += &String::from_utf8(output.stdout).unwrap();
    match output.status.code() {
        Some(0) => text,
        Some(status) => text + &format!("[status {status}]\n"),
        None => text + "[ended by a signal]\n",
    }
}

fn compare(name: &str) {
    let file = Path::new(env!("CARGO_MANIFEST_DIR")).join("tests/stored").join(name);
    let stored = std::fs::read_to_string(&file).unwrap();
    let folder = folder(name);
    let told: String = commands(&stored).iter().map(|command| play(command, &folder)).collect();
    if std::env::var_os("STORE").is_some() {
        return std::fs::write(&file, &told).unwrap();
    }
    assert!(stored == told, "{name} differs; it was:\n{stored}\nand is now:\n{told}");
}

#[test]
fn help() {
    compare("help.txt");
}

#[test]
fn incident() {
    compare("incident.txt");
}

#[test]
fn show() {
    compare("show.txt");
}

#[test]
fn check() {
    compare("check.txt");
}

#[test]
fn play_log() {
    compare("play.txt");
}

#[test]
fn why() {
    compare("why.txt");
}

#[test]
fn bad_input() {
    compare("bad-input.txt");
}
