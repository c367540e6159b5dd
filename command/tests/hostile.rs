//! Random files, random damages of good dumps, random logs and random words for the command: each ends
//! with a status that means something, and check is of the library's opinion.
//!
//! FILES and SEED in the environment say how many files, and which.

mod common;

use common::{bytes, command, folder, settings, table, Random, MODES};
use speldervacht::report;
use std::path::Path;

fn setting(name: &str, default: u64) -> u64 {
    std::env::var(name).map_or(default, |text| text.parse().expect("FILES and SEED are numbers"))
}

/// A file that may or may not be a dump.
fn file(random: &mut Random, dumps: &[Vec<u64>]) -> Vec<u8> {
    if random.below(4) == 0 {
        return (0..random.below(700)).map(|_| random.next() as u8).collect();
    }
    let mut words = dumps[random.below(dumps.len())].clone();
    for _ in 0..random.below(4) {
        damage(random, &mut words);
    }
    let mut bytes = bytes(&words);
    if random.below(8) == 0 {
        bytes.truncate(random.below(bytes.len() + 1));
    }
    bytes
}

fn damage(random: &mut Random, words: &mut [u64]) {
    let (place, other) = (random.below(words.len()), random.below(words.len()));
    match random.below(4) {
        0 => words[place] ^= 1 << random.below(64),
        1 => words[place] = random.pick(&[0, 1, 2, 3, 5, 7, 64, 4_096, 4_097, 65_536, 65_537, 1 << 63, u64::MAX]),
        2 => words[place] = random.next(),
        _ => words.swap(place, other),
    }
}

/// The words of a file, as the library is given them.
fn words(file: &[u8]) -> Vec<u64> {
    file.chunks_exact(8).map(|word| u64::from_le_bytes(word.try_into().unwrap())).collect()
}

/// A log of lines that are mostly requests.
fn log(random: &mut Random) -> Vec<u8> {
    let words = [
        "insert",
        "protect",
        "release",
        "pin",
        "unpin",
        "resize",
        "discard",
        "flush",
        "sync",
        "take",
        "configure",
        "0",
        "7",
        "9",
        "300",
        "1024",
        "0x40",
        "reading",
        "writing",
        "changed",
        "unchanged",
        "#",
        "18446744073709551615",
        "18446744073709551616",
        "-1",
        "0100",
        "0x0",
        "+1",
        "evictions=off",
        "maximum_size=1024",
        "initial_size=none",
        "increase=off",
        "flash=on:1,nan",
        "decrease=age-out:3,0.1",
        "decrease=threshold:1",
        "=",
        "\u{e4}",
        "\0",
    ];
    let good = [
        "insert 5 100",
        "insert 11 5000",
        "protect 7 64 reading",
        "protect 300 512 reading",
        "release 300 unchanged",
        "protect 0 1024 writing",
        "release 0 changed 2000",
        "pin 300",
        "unpin 9",
        "resize 9 50",
        "discard 7",
        "flush",
        "sync",
        "take",
        "take 01000800000000000000020200020000090000",
        "take 01 0008 0000000000000003 02 0002 0000 09 0000",
        "take 01000800000000000000020200020001030008000001000000000009",
        "configure evictions=on",
        "configure maximum_size=16384 minimum_size=1024 initial_size=none",
    ];
    let mut text = String::new();
    for _ in 0..random.below(12) {
        match random.below(8) {
            0 => (0..random.below(5)).for_each(|_| text += &format!("{} ", random.pick(&words))),
            _ => text += random.pick(&good),
        }
        text.push('\n');
    }
    let mut log = text.into_bytes();
    if random.below(20) == 0 {
        log.extend([0xff, 0xfe]);
    }
    log
}

/// Whether two outputs of play have the same requests and answers; with reasons an order's line is another.
fn same_but_reasons(text: &str, why: &str) -> bool {
    let answers = |text: &str| -> Vec<String> {
        let answer =
            |line: &&str| !line.starts_with("  ") || line.starts_with("  accepted") || line.starts_with("  refused");
        text.lines().filter(answer).map(str::to_string).collect()
    };
    answers(text) == answers(why)
}

/// What each command says of a file, beside the library's verdict.
fn try_file(file: &[u8], random: &mut Random, folder: &Path) -> bool {
    let sound = report(&words(file)).is_ok();
    let (status, text) = command(&["check", "-"], file);
    assert_eq!(status, !sound as u8, "{text}");
    assert_eq!(command(&["check", "--json", "-"], file).0, status);
    let (status, text) = command(&["show", "--entries", "--list", "-"], file);
    assert!(if sound { status == 0 } else { status == 1 || status == 2 }, "{text}");
    assert_eq!(command(&["show", "--json", "--entries", "--list", "-"], file).0, status);
    let (log_file, out) = (folder.join("log"), folder.join("out"));
    let (log_name, out_name) = (log_file.to_str().unwrap(), out.to_str().unwrap());
    std::fs::write(&log_file, log(random)).unwrap();
    let (status, text) = command(&["play", "-", log_name, "--out", out_name], file);
    assert!(status <= 2 && (sound || status == 2), "{text}");
    let (again, why) = command(&["play", "-", log_name, "--why"], file);
    assert_eq!(again, status, "{why}");
    assert!(status == 2 || same_but_reasons(&text, &why), "{text}\n{why}");
    if status < 2 {
        assert_eq!(command(&["check", out_name], &[]).0, 0);
        let (status, text) = command(&["diff", out_name, "-"], file);
        assert!(status < 2, "{text}");
        std::fs::remove_file(&out).unwrap();
    }
    // A file that is written anew, and not over, needs no waiting for the disk.
    std::fs::remove_file(&log_file).unwrap();
    sound
}

#[test]
fn files() {
    let (files, seed) = (setting("FILES", 20_000), setting("SEED", 1));
    let mut random = Random(seed);
    let dumps: Vec<Vec<u64>> =
        MODES.iter().flat_map(|mode| settings().into_iter().map(|s| table(*mode, &s, 6))).collect();
    let folder = folder("hostile");
    let sound = (0..files).filter(|_| try_file(&file(&mut random, &dumps), &mut random, &folder)).count();
    println!("seed {seed}: {files} files, {sound} of them sound");
    assert!(sound > 0 && sound < files as usize);
}

#[test]
fn words_of_the_command() {
    let mut random = Random(setting("SEED", 1));
    let some = [
        "show",
        "check",
        "diff",
        "play",
        "open",
        "-",
        "--",
        "--json",
        "--entries",
        "--list",
        "--out",
        "--why",
        "--threshold",
        "",
        "no/such/file",
        "4",
        "lead",
        "alone",
        "evictions=maybe",
        "maximum_size=1",
        "--nothing",
        "-x",
    ];
    let out = folder("words");
    std::env::set_current_dir(&out).unwrap();
    for _ in 0..20_000 {
        let words: Vec<&str> = (0..random.below(6)).map(|_| random.pick(&some)).collect();
        let (status, text) = command(&words, b"nothing");
        assert!(status <= 2, "{words:?}");
        assert!(status != 2 || !text.is_empty(), "{words:?}");
    }
}
