//! `pahyndoi item`, its answer, its refusals by 24 and its arguments. The
//! audit's refusals are in `refusals.rs`.

use crate::folder::Folder;
use crate::material::{ENTRY, FILLER, sealed, small, store};
use crate::run::{assert_narrow, joined, run};

const FLAGS: [(&str, &str); 5] = [
    ("--device", "device.store"),
    ("--auditor", "auditor.store"),
    ("--logs", "logs.bin"),
    ("--lengths", "lengths.bin"),
    ("--seal", "seal.bin"),
];

fn small_folder(name: &str) -> Folder {
    let folder = Folder::new(&format!("item/{name}"));
    small().write(&folder);
    folder
}

/// One phase with these entries.
fn folder_of(name: &str, entries: &[&[u8]]) -> Folder {
    let folder = Folder::new(&format!("item/{name}"));
    let entries: Vec<(u8, &[u8])> = entries.iter().map(|data| (1, *data)).collect();
    sealed(store(1, 1, 16), &[0], &entries).write(&folder);
    folder
}

/// What stands above the marks, in the rows of text and in hexadecimal.
fn marked(text: &str) -> Vec<&str> {
    let lines: Vec<&str> = text.lines().collect();
    let pairs = lines.windows(2).filter(|pair| pair[1].ends_with('^'));
    pairs
        .map(|pair| &pair[0][pair[1].find('^').expect("a mark")..pair[1].len()])
        .collect()
}

#[test]
fn answer_in_words() {
    let expected = "\
Item 3 sealed the byte at offset 6 of phase 2.
  At byte 150 of the seal file stands an entry of phase 2, offset 4, 4 bytes,
  chunk 1, ratchet offset 0.

Its data, each row behind its offset in the log; ^ marks the byte asked for:

     4  |road|
           ^

     4  72 6f 61 64
              ^^
";
    let folder = small_folder("words");
    assert_eq!(folder.item("2", "6", &[]).ended(0), expected);
}

/// Every byte of both logs, the first and the last of each area among them.
#[test]
fn every_byte_leads_to_its_item() {
    let folder = small_folder("every");
    let areas: [(usize, u8, usize, &str); 5] = [
        (0, 1, 0, "0123456789"),
        (1, 2, 0, "side"),
        (2, 1, 10, "abcdefghij"),
        (3, 2, 4, "road"),
        (4, 1, 20, "ABCDEFGHIJ"),
    ];
    for (number, phase, start, data) in areas {
        let (place, chunk, ratchet) = (number * ENTRY, number / 3, number % 3);
        for (offset, byte) in (start..).zip(data.bytes()) {
            let text = folder
                .item(&phase.to_string(), &offset.to_string(), &[])
                .ended(0);
            let expected = format!(
                "Item {number} sealed the byte at offset {offset} of phase {phase}. At byte \
                 {place} of the seal file stands an entry of phase {phase}, offset {start}, {} \
                 bytes, chunk {chunk}, ratchet offset {ratchet}. Its data,",
                data.len()
            );
            assert!(joined(&text).starts_with(&expected), "{text}");
            assert!(text.contains(&format!("|{data}|\n")), "{text}");
            let byte_itself = char::from(byte).to_string();
            assert_eq!(marked(&text), [byte_itself, format!("{byte:02x}")]);
        }
    }
}

/// What would clear a screen or forge a line is written out.
#[test]
fn bytes_that_are_no_text() {
    let data = b"\x1b[2J\\n\tcaf\xc3\xa9 |\"'\r\n\x00 forged\n";
    let folder = folder_of("bytes", &[b"before", data]);
    let text = folder.item("1", "17", &[]).ended(0);
    let rows = r#"
     6  |\x1b[2J\\n\tcaf\xc3\xa9 |"'\r\n|
                            ^^^^
    24  |\x00 forged\n|

     6  1b 5b 32 4a 5c 6e 09 63 61 66 c3 a9 20 7c 22 27
                                         ^^
    22  0d 0a 00 20 66 6f 72 67 65 64 0a
"#;
    assert!(text.ends_with(rows), "{text}");
    let is_plain = |byte: u8| byte == b'\n' || (b' '..=b'~').contains(&byte);
    assert!(text.bytes().all(is_plain), "{text}");
}

/// A full log of the longest entries, the last byte of it.
#[test]
fn longest_data() {
    let long = [[b'x'; 511].as_slice(), b"!"].concat();
    let text = folder_of("longest", &[&long[..]; 16])
        .item("1", "8191", &[])
        .ended(0);
    assert_narrow(&text);
    assert!(text.starts_with("Item 15 sealed the byte at offset 8,191 of phase 1.\n"));
    assert!(joined(&text).contains("phase 1, offset 7,680, 512 bytes, chunk 0"));
    assert_eq!(marked(&text), ["!", "21"]);
    let rows = |mark: &str| text.lines().filter(|line| line.contains(mark)).count();
    assert_eq!((rows("|"), rows(" 78 78 ")), (8, 32));
    for row in ["\n  7680  |xxx", "\n  8128  |xxx", "\n  8176  78 78"] {
        assert!(text.contains(row), "{text}");
    }
}

/// Escapes fill the columns with a quarter of the bytes.
#[test]
fn longest_data_without_text() {
    let text = folder_of("binary", &[&[0xff; 512]])
        .item("1", "16", &[])
        .ended(0);
    assert_narrow(&text);
    assert_eq!(marked(&text), ["\\xff", "ff"]);
    assert_eq!(text.matches("\n    16  ").count(), 2, "{text}");
    assert_eq!(text.matches('|').count(), 64, "{text}");
}

#[test]
fn json_of_a_found_item() {
    let folder = small_folder("json");
    let whole = folder.whole();
    let expected = format!(
        "{{\"verdict\":\"accepted\",\"rule\":null,\"item\":3,\"reason\":null,\"detail\":null,\
         \"phase\":2,\"offset\":6,\"place\":150,\"chunk\":1,\"ratchet\":0,\
         \"area\":{{\"phase\":2,\"offset\":4,\"length\":4}},\
         \"data\":{{\"text\":\"road\",\"hexadecimal\":\"726f6164\",\"index\":2}},\
         \"files\":{{\"device\":\"{whole}/device.store\",\
         \"auditor\":\"{whole}/auditor.store\",\"logs\":\"{whole}/logs.bin\",\
         \"lengths\":\"{whole}/lengths.bin\",\"seal\":\"{whole}/seal.bin\"}}}}\n"
    );
    assert_eq!(folder.item("2", "6", &["--json"]).ended(0), expected);
}

#[test]
fn text_for_machines_is_utf_8_or_null() {
    let folder = folder_of("utf-8", &["\"é\"\n\u{1b}".as_bytes(), b"\xe9"]);
    let json = folder.item("1", "2", &["--json"]).ended(0);
    let data = r#""data":{"text":"\"é\"\u000a\u001b","hexadecimal":"22c3a9220a1b","index":2}"#;
    assert!(json.contains(data), "{json}");
    let json = folder.item("1", "6", &["--json"]).ended(0);
    let data = r#""data":{"text":null,"hexadecimal":"e9","index":0}"#;
    assert!(json.contains(data), "{json}");
}

#[test]
fn rule_24() {
    let folder = small_folder("24");
    let rule = "the phase is not one of the store's, or the offset is not below the phase's length";
    let refused = [
        ("1", "30", "The length of phase 1 is 30."),
        ("1", "4294967295", "The length of phase 1 is 30."),
        ("2", "8", "The length of phase 2 is 8."),
        ("0", "0", "Phases are 1 to 2."),
        ("3", "0", "Phases are 1 to 2."),
        ("255", "0", "Phases are 1 to 2."),
    ];
    for (phase, offset, detail) in refused {
        let text = folder.item(phase, offset, &[]).ended(1);
        assert_narrow(&text);
        let expected = format!("REFUSED by rule 24: {rule}. {detail}");
        assert_eq!(joined(&text), expected);
        let json = folder.item(phase, offset, &["--json"]).ended(1);
        let expected = format!(
            "{{\"verdict\":\"refused\",\"rule\":24,\"item\":null,\"reason\":\"{rule}\",\
             \"detail\":\"{detail}\",\"phase\":{phase},\"offset\":{offset},\"place\":null,\
             \"chunk\":null,\"ratchet\":null,\"area\":null,\"data\":null,\"files\":{{"
        );
        assert!(json.starts_with(&expected), "{json}");
    }
}

#[test]
fn nothing_sealed_has_no_byte() {
    let text = folder_of("nothing", &[]).item("1", "0", &[]).ended(1);
    assert!(text.starts_with("REFUSED by rule 24:"), "{text}");
    assert!(
        text.ends_with("\n  The length of phase 1 is 0.\n"),
        "{text}"
    );
}

#[test]
fn flags_stand_for_a_folder() {
    let folder = small_folder("flags");
    let files = FLAGS.map(|(flag, name)| format!("{flag}={}", folder.path(name)));
    let asked = ["item", "--phase=1", "--offset=29"].map(String::from);
    let text = run(&[&asked[..], &files].concat()).ended(0);
    assert!(text.starts_with("Item 4 sealed"), "{text}");
    let error = run(&[&asked[..], &files[..3]].concat()).failed();
    assert!(error.contains("give a folder, or a file with --lengths, --seal"));
}

#[test]
fn flags_override_the_folder() {
    let folder = small_folder("override");
    let seal = folder.read("seal.bin");
    let other = folder.write("other.bin", &seal[..seal.len() - FILLER]);
    let text = folder.item("1", "0", &["--seal", &other]).ended(1);
    assert!(text.starts_with("REFUSED by rule 22:"), "{text}");
}

#[test]
fn wrong_arguments() {
    let wrong: [(&[&str], &str); 12] = [
        (&["--offset=0"], "--phase is missing"),
        (&["--phase=1"], "--offset is missing"),
        (&["--phase"], "--phase needs a value"),
        (&["--phase="], "--phase needs a value"),
        (&["--phase", "--offset=0"], "--phase needs a value"),
        (&["--phase", "-x"], "--phase needs a value"),
        (&["--phase=1", "--phase=1"], "--phase is given twice"),
        (&["--offset=1", "--offset=2"], "--offset is given twice"),
        (&["--no-picture"], "unknown flag '--no-picture'"),
        (&["-p1"], "unknown flag '-p1'"),
        (&["--json=yes"], "unknown flag '--json=yes'"),
        (&["b"], "'b' is too much"),
    ];
    let folder = small_folder("wrong");
    for (arguments, reason) in wrong {
        let error = run(&[&["item", folder.whole()], arguments].concat()).failed();
        let expected = format!("pahyndoi: {reason}\nTry 'pahyndoi item --help'.\n");
        assert_eq!(error, expected);
    }
    let error = run(&["item", "--phase=1", "--offset=0"]).failed();
    assert!(error.starts_with("pahyndoi: give a folder, or"), "{error}");
}

#[test]
fn missing_file() {
    let folder = small_folder("missing");
    let none = folder.path("none");
    let error = folder.item("1", "0", &["--logs", &none]).failed();
    assert_eq!(error, format!("pahyndoi: {none}: no such file or folder\n"));
}
