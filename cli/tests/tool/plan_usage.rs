//! Help of `pahyndoi plan`, and arguments that are not understood.

use crate::plan::words;
use crate::run::{assert_narrow, run};

#[test]
fn wrong_arguments() {
    let wants = |name, value| {
        let range = match name {
            "COUNT" => "0 to 65,536",
            _ => "1 to 1,024",
        };
        format!("{name} wants a number from {range}, not '{value}'")
    };
    let wrong: [(&[&str], String); 19] = [
        (&[], "--chunks is missing".into()),
        (&["36"], "--chunks is missing".into()),
        (&["--chunks"], "--chunks needs a value".into()),
        (&["--chunks="], "--chunks needs a value".into()),
        (&["--chunks", "--json"], "--chunks needs a value".into()),
        (
            &["--chunks=1", "--chunks=1"],
            "--chunks is given twice".into(),
        ),
        (&["--chunks=ten"], wants("--chunks", "ten")),
        (&["--chunks=+1"], wants("--chunks", "+1")),
        (&["--chunks", "-1"], wants("--chunks", "-1")),
        (&["--chunks=4294967296"], wants("--chunks", "4294967296")),
        (&["--chunks=8", "36", "x"], wants("COUNT", "x")),
        (&["--chunks=8", "1,0240"], wants("COUNT", "1,0240")),
        (&["--chunks=8", "4294967296"], wants("COUNT", "4294967296")),
        (&["--chunks=8", "-1"], wants("COUNT", "-1")),
        (&["-36", "--chunks=8"], wants("COUNT", "-36")),
        (&["--chunks=8", "--", "-h"], wants("COUNT", "-h")),
        (&["--chunks=8", ""], "an argument is empty".into()),
        (&["--chunks=8", "-x1"], "unknown flag '-x1'".into()),
        (
            &["--chunks=8", "--json=yes"],
            "unknown flag '--json=yes'".into(),
        ),
    ];
    for (arguments, reason) in wrong {
        let error = run(&[&["plan", "ratchet"], arguments].concat()).failed();
        let expected = format!("pahyndoi: {reason}\nTry 'pahyndoi plan ratchet --help'.\n");
        assert_eq!(error, expected);
    }
}

#[test]
fn counts_need_not_be_utf_8() {
    use std::ffi::OsStr;
    use std::os::unix::ffi::OsStrExt;
    for odd in [&b"\xff"[..], b"--chunks=\xff"] {
        let arguments = ["plan", "ratchet", "--chunks=8"].map(OsStr::new);
        let known = if odd.len() > 1 { 2 } else { 3 };
        let error = run(&[&arguments[..known], &[OsStr::from_bytes(odd)]].concat()).failed();
        assert!(error.contains(" wants a number from "), "{error}");
    }
}

#[test]
fn flags_may_stand_anywhere() {
    let expected = words(10, &[36, 36], 0);
    for arguments in [
        ["36", "--chunks", "10", "36"],
        ["36", "36", "--chunks", "10"],
        ["--chunks=10", "--", "36", "36"],
    ] {
        let text = run(&[&["plan", "ratchet"], &arguments[..]].concat()).ended(0);
        assert_eq!(text, expected);
    }
}

#[test]
fn commands_of_plan() {
    let hint = "Try 'pahyndoi plan --help'.\n";
    let error = run(&["plan"]).failed();
    assert_eq!(
        error,
        format!("pahyndoi: plan needs a command behind it\n{hint}")
    );
    for name in ["rachet", "8", "--chunks=8"] {
        let error = run(&["plan", name, "--help"]).failed();
        let expected = format!("pahyndoi: unknown command 'plan {name}'\n{hint}");
        assert_eq!(error, expected);
    }
}

#[test]
fn help_of_each_command_of_plan() {
    let text = run(&["plan", "-h"]).ended(0);
    assert!(text.contains("\n  ratchet "), "{text}");
    for arguments in [&["--help"][..], &["--chunks", "8", "36", "-h"]] {
        let text = run(&[&["plan", "ratchet"], arguments].concat()).ended(0);
        assert_narrow(&text);
        assert!(
            text.contains("\nUsage: pahyndoi plan ratchet --chunks C"),
            "{text}"
        );
        let status = "\nExit status: 0 found, 1 refused or none lasts, 2 bad usage, or an output \
                      that\ncan't be written.\n";
        assert!(text.ends_with(status), "{text}");
    }
}
