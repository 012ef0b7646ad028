//! Help, and arguments that are not understood.

use crate::run::{assert_narrow, run};

const COMMANDS: [&str; 6] = ["demo", "audit", "item", "dump", "pack", "plan"];

#[test]
fn help_of_the_tool_names_every_command() {
    for flag in ["--help", "-h"] {
        let text = run(&[flag]).ended(0);
        assert_narrow(&text);
        for command in COMMANDS {
            assert!(text.contains(&format!("\n  {command} ")), "{text}");
        }
    }
}

#[test]
fn help_of_each_command_shows_its_usage() {
    for command in COMMANDS {
        let text = run(&[command, "--help"]).ended(0);
        assert_narrow(&text);
        assert!(
            text.contains(&format!("\nUsage: pahyndoi {command}")),
            "{text}"
        );
        assert!(text.contains("\nExit status: 0"), "{text}");
    }
}

/// `help` and names print what the names and `--help` print.
#[test]
fn help_is_a_command() {
    let asked: [&[&str]; 9] = [
        &[],
        &["demo"],
        &["audit"],
        &["item"],
        &["dump"],
        &["pack"],
        &["plan"],
        &["plan", "ratchet"],
        &["help"],
    ];
    for names in asked {
        let expected = run(&[names, &["--help"]].concat()).ended(0);
        for more in [&[][..], &["--help"], &["-h"]] {
            let text = run(&[&["help"], names, more].concat()).ended(0);
            assert_eq!(text, expected, "{names:?}");
        }
    }
    let text = run(&["help"]).ended(0);
    assert!(text.contains("\n  help  "), "{text}");
}

#[test]
fn help_of_what_is_no_command() {
    let wrong: [(&[&str], &str, &str); 7] = [
        (&["adit"], "unknown command 'adit'", ""),
        (&["adit", "--help"], "unknown command 'adit'", ""),
        (&["--fast"], "unknown command '--fast'", ""),
        (&["--", "audit"], "unknown command '--'", ""),
        (
            &["plan", "rachet"],
            "unknown command 'plan rachet'",
            "plan ",
        ),
        (&["audit", "--"], "'--' is too much", ""),
        (&["plan", "ratchet", "8"], "'8' is too much", "plan "),
    ];
    for (names, reason, of) in wrong {
        let error = run(&[&["help"], names].concat()).failed();
        let expected = format!("pahyndoi: {reason}\nTry 'pahyndoi {of}--help'.\n");
        assert_eq!(error, expected);
    }
}

#[test]
fn version_of_the_tool() {
    for flag in ["--version", "-V"] {
        let expected = format!("pahyndoi {}\n", env!("CARGO_PKG_VERSION"));
        assert_eq!(run(&[flag]).ended(0), expected);
    }
    let text = run(&["--help"]).ended(0);
    assert!(text.contains("\n  --version, -V  "), "{text}");
}

/// It is a flag of the tool, and of no command.
#[test]
fn version_of_a_command() {
    let error = run(&["audit", "--version"]).failed();
    let expected = "pahyndoi: unknown flag '--version'\n";
    assert!(error.starts_with(expected), "{error}");
    let error = run(&["plan", "-V"]).failed();
    let expected = "pahyndoi: unknown command 'plan -V'\n";
    assert!(error.starts_with(expected), "{error}");
}

#[test]
fn help_of_pack_says_who_makes_keys() {
    let text = run(&["pack", "--help"]).ended(0);
    assert!(text.contains("No keys are made here."), "{text}");
}

#[test]
fn help_of_pack_says_which_store_carries_a_set() {
    let text = run(&["pack", "--help"]).ended(0);
    let words = "With any of the last three the store is of kind 6";
    assert!(text.contains(words), "{text}");
    for flag in ["--tag-length T", "--data-limit D", "--log-capacity L"] {
        assert_eq!(text.matches(flag).count(), 2, "{text}");
    }
}

#[test]
fn help_of_item_says_how_bytes_are_written() {
    let text = run(&["item", "--help"]).ended(0);
    let words = "are written as \\n, \\t, \\r or \\xff,\nand a backslash as two.";
    assert!(text.contains(words), "{text}");
}

#[test]
fn unknown_commands_and_flags() {
    let none: [&str; 0] = [];
    let hint = "Try 'pahyndoi --help'.\n";
    let error = run(&none).failed();
    assert_eq!(error, format!("pahyndoi: no command is given\n{hint}"));
    let error = run(&["adit"]).failed();
    assert_eq!(error, format!("pahyndoi: unknown command 'adit'\n{hint}"));
    let error = run(&["audit", "--fast"]).failed();
    let hint = "Try 'pahyndoi audit --help'.\n";
    assert_eq!(error, format!("pahyndoi: unknown flag '--fast'\n{hint}"));
}

#[test]
fn wrong_arguments() {
    let wrong: [(&[&str], &str); 9] = [
        (&["audit"], "give a folder, or a file with --device, "),
        (&["audit", "a", "b"], "'b' is too much"),
        (&["audit", ""], "an argument is empty"),
        (&["dump", ""], "an argument is empty"),
        (&["audit", "--seal"], "--seal needs a value"),
        (&["audit", "--seal", "--json"], "--seal needs a value"),
        (&["audit", "--seal="], "--seal needs a value"),
        (&["audit", "--seal=a", "--seal=b"], "--seal is given twice"),
        (&["audit", "--json=yes"], "unknown flag '--json=yes'"),
    ];
    for (arguments, reason) in wrong {
        let error = run(arguments).failed();
        assert!(error.starts_with(&format!("pahyndoi: {reason}")), "{error}");
    }
}

#[test]
fn behind_two_dashes_nothing_is_a_flag() {
    for name in ["--json", "--help", "-h"] {
        let error = run(&["dump", "--", name]).failed();
        let expected = format!("pahyndoi: {name}: no such file or folder\n");
        assert_eq!(error, expected);
    }
}

#[test]
fn arguments_need_not_be_utf_8() {
    use std::ffi::OsStr;
    use std::os::unix::ffi::OsStrExt;
    let odd = OsStr::from_bytes(b"\xff\xfe");
    let error = run(&[odd]).failed();
    assert!(error.starts_with("pahyndoi: unknown command '"), "{error}");
    let error = run(&[OsStr::new("dump"), odd]).failed();
    assert!(error.ends_with(": no such file or folder\n"), "{error}");
    let error = run(&[OsStr::new("dump"), OsStr::from_bytes(b"--\xff")]).failed();
    assert!(error.starts_with("pahyndoi: unknown flag '"), "{error}");
    let error = run(&[OsStr::new("audit"), OsStr::from_bytes(b"--seal=\xff")]).failed();
    let missing = "--device, --auditor, --logs, --lengths\n";
    assert!(error.contains(missing), "{error}");
    let error = run(&[OsStr::new("pack"), OsStr::from_bytes(b"--id=\xff")]).failed();
    assert!(error.starts_with("pahyndoi: --id wants 16 "), "{error}");
}

/// A name may hold what would clear a screen or forge a line of output.
#[test]
fn control_characters_are_written_out() {
    let name = "\u{1b}[2J\nACCEPTED";
    let written = "\\u{1b}[2J\\nACCEPTED";
    let error = run(&[name]).failed();
    assert!(error.contains(&format!("'{written}'\n")), "{error}");
    let error = run(&["dump", name]).failed();
    let expected = format!("pahyndoi: {written}: no such file or folder\n");
    assert_eq!(error, expected);
    for arguments in [
        ["dump", "--\u{7}"],
        ["demo", "\u{7}"],
        ["pack", "--id=\u{7}"],
        ["plan", "\u{7}"],
    ] {
        let error = run(&arguments).failed();
        assert!(error.contains("\\u{7}"), "{error}");
        assert!(!error.contains('\u{7}'), "{error}");
    }
}
