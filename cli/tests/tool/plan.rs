//! `pahyndoi plan ratchet`, its answers and its refusals by 25. Its arguments are
//! in `plan_usage.rs`, random plans in `plan_table.rs`.

use crate::run::{Run, assert_narrow, joined, run};

const RULE: &str = "the plan has more than 64 counts, a count above 65,536, or a chunk count \
                    outside 1 to 1,024";

fn plan(chunks: u32, counts: &[u32], more: &[&str]) -> Run {
    let mut arguments = vec!["plan".to_string(), "ratchet".into(), "--chunks".into()];
    arguments.push(chunks.to_string());
    arguments.extend(counts.iter().map(u32::to_string));
    arguments.extend(more.iter().map(|argument| argument.to_string()));
    run(&arguments)
}

/// The words of a plan that ends so.
pub fn words(chunks: u32, counts: &[u32], status: i32) -> String {
    let text = plan(chunks, counts, &[]).ended(status);
    assert_narrow(&text);
    text
}

fn json(chunks: u32, counts: &[u32], status: i32) -> String {
    plan(chunks, counts, &["--json"]).ended(status)
}

/// A table for machines, of ratchets, chunks and whether they last.
fn rows_json(rows: &[(u32, u64, bool)]) -> String {
    let rows = rows.iter().map(|(ratchet, chunks, lasts)| {
        format!("{{\"ratchet\":{ratchet},\"chunks\":{chunks},\"lasts\":{lasts}}}")
    });
    format!("[{}]", rows.collect::<Vec<_>>().join(","))
}

#[test]
fn least_ratchet_in_words() {
    let expected = "\
The least N that lasts is 8: it takes 18 of the card's 20 chunks and leaves 2.

      N     chunks
      5         29  9 too many
      6         24  4 too many
      7         21  1 too many
  >   8         18  2 left
      9         17  3 left
     10         15  5 left
     11         14  6 left
";
    assert_eq!(words(20, &[96, 0, 40, 1], 0), expected);
}

#[test]
fn least_ratchet_for_machines() {
    let rows = [
        (5, 29, false),
        (6, 24, false),
        (7, 21, false),
        (8, 18, true),
        (9, 17, true),
        (10, 15, true),
        (11, 14, true),
    ];
    let expected = format!(
        "{{\"verdict\":\"found\",\"rule\":null,\"reason\":null,\"detail\":null,\"chunks\":20,\
         \"counts\":[96,0,40,1],\"ratchet\":8,\"taken\":18,\"left\":2,\"table\":{},\
         \"card\":null}}\n",
        rows_json(&rows)
    );
    assert_eq!(json(20, &[96, 0, 40, 1], 0), expected);
}

#[test]
fn numbers_are_grouped() {
    let expected = "\
The least N that lasts is 64: it takes 1,024 of the card's 1,024 chunks and
leaves 0.

      N     chunks
     61      1,075  51 too many
     62      1,058  34 too many
     63      1,041  17 too many
  >  64      1,024  0 left
     65      1,009  15 left
     66        993  31 left
     67        979  45 left
";
    assert_eq!(words(1024, &[65_536], 0), expected);
}

#[test]
fn first_ratchet_has_none_below() {
    let expected = "\
The least N that lasts is 1: it takes 1 of the card's 1 chunk and leaves 0.

      N     chunks
  >   1          1  0 left
      2          1  0 left
      3          1  0 left
      4          1  0 left
";
    assert_eq!(words(1, &[1], 0), expected);
}

#[test]
fn last_ratchet_has_none_above() {
    let expected = "\
The least N that lasts is 256: it takes 2 of the card's 2 chunks and leaves 0.

      N     chunks
    253          3  1 too many
    254          3  1 too many
    255          3  1 too many
  > 256          2  0 left
";
    assert_eq!(words(2, &[512], 0), expected);
}

#[test]
fn empty_list() {
    let expected = "\
No counts are given, and an empty list needs N = 1: it takes 0 of the card's 8
chunks and leaves 8.

      N     chunks
  >   1          0  8 left
      2          0  8 left
      3          0  8 left
      4          0  8 left
";
    assert_eq!(words(8, &[], 0), expected);
    let rows = [(1, 0, true), (2, 0, true), (3, 0, true), (4, 0, true)];
    let expected = format!(
        "{{\"verdict\":\"found\",\"rule\":null,\"reason\":null,\"detail\":null,\"chunks\":8,\
         \"counts\":[],\"ratchet\":1,\"taken\":0,\"left\":8,\"table\":{},\"card\":null}}\n",
        rows_json(&rows)
    );
    assert_eq!(json(8, &[], 0), expected);
}

#[test]
fn none_lasts_and_another_card_does() {
    let expected = "\
NONE LASTS: even N = 256 takes 1,003 chunks, 1,000 more than the card has.
  The smallest card with chunks enough has 1,003.
  The plan has 256,608 entries, and the logs of a card of kind 1 take 65,536 at
  most, of a byte each: it takes 8 phases with a log capacity of 32,076 or more.

      N     chunks
    253      1,018  1,015 too many
    254      1,014  1,011 too many
    255      1,010  1,007 too many
    256      1,003  1,000 too many
";
    let counts = [65_536, 65_536, 65_536, 60_000];
    assert_eq!(words(3, &counts, 1), expected);
    let rows = [
        (253, 1018, false),
        (254, 1014, false),
        (255, 1010, false),
        (256, 1003, false),
    ];
    let expected = format!(
        "{{\"verdict\":\"none\",\"rule\":null,\"reason\":null,\"detail\":\"The plan has \
         256,608 entries, and the logs of a card of kind 1 take 65,536 at most, of a byte each: \
         it takes 8 phases with a log capacity of 32,076 or more.\",\"chunks\":3,\
         \"counts\":[65536,65536,65536,60000],\"ratchet\":null,\"taken\":null,\"left\":null,\
         \"table\":{},\"card\":1003}}\n",
        rows_json(&rows)
    );
    assert_eq!(json(3, &counts, 1), expected);
}

/// The card named is the smallest: with one chunk less none lasts.
#[test]
fn card_with_chunks_enough() {
    let plans: [(&[u32], u32); 4] = [
        (&[1, 1], 2),
        (&[300, 300, 10, 0], 5),
        (&[65_536; 4], 1024),
        (&[4096; 64], 1024),
    ];
    for (counts, card) in plans {
        let text = words(1, counts, 1);
        assert!(
            text.contains("smallest card with chunks enough has "),
            "{text}"
        );
        assert!(json(1, counts, 1).ends_with(&format!(",\"card\":{card}}}\n")));
        assert!(json(card - 1, counts, 1).ends_with(&format!(",\"card\":{card}}}\n")));
        assert!(json(card, counts, 0).ends_with(",\"card\":null}\n"));
    }
}

#[test]
fn no_card_has_chunks_enough() {
    let expected = "\
NONE LASTS: even N = 256 takes 1,025 chunks, 1 more than the card has.
  No card has chunks enough: the largest has 1,024.
  The plan has 262,144 entries, and the logs of a card of kind 1 take 65,536 at
  most, of a byte each: it takes 8 phases with a log capacity of 32,768 or more.

      N     chunks
    253      1,041  17 too many
    254      1,037  13 too many
    255      1,032  8 too many
    256      1,025  1 too many
";
    let counts = [65_536, 65_536, 65_536, 65_535, 1];
    assert_eq!(words(1024, &counts, 1), expected);
    let rows = [
        (253, 1041, false),
        (254, 1037, false),
        (255, 1032, false),
        (256, 1025, false),
    ];
    let expected = format!(
        "{{\"verdict\":\"none\",\"rule\":null,\"reason\":null,\"detail\":\"The plan has \
         262,144 entries, and the logs of a card of kind 1 take 65,536 at most, of a byte each: \
         it takes 8 phases with a log capacity of 32,768 or more.\",\"chunks\":1024,\"counts\":[65536,65536,65536,65535,1],\
         \"ratchet\":null,\"taken\":null,\"left\":null,\"table\":{},\"card\":null}}\n",
        rows_json(&rows)
    );
    assert_eq!(json(1024, &counts, 1), expected);
}

/// Chunks last, and what the logs can't take is said all the same.
#[test]
fn entries_beyond_the_logs() {
    let said = "The plan has 65,537 entries, and the logs of a card of kind 1 take 65,536 at most, \
                of a byte each: it takes 8 phases with a log capacity of 8,193 or more.";
    let text = joined(&words(1024, &[65_536, 1], 0));
    assert!(text.contains(said), "{text}");
    let line = json(1024, &[65_536, 1], 0);
    assert!(line.contains(&format!("\"detail\":\"{said}\",")), "{line}");
    assert!(!words(1024, &[65_535, 1], 0).contains("entries"));
    assert!(json(1024, &[65_535, 1], 0).contains("\"detail\":null,"));
}

/// The largest logs take 524,288 entries.
#[test]
fn entries_beyond_all_logs() {
    for (last, said) in [
        (
            0,
            "it takes 8 phases with a log capacity of 65,536 or more.",
        ),
        (1, "it takes several cards."),
    ] {
        let text = joined(&words(1, &[&[65_536; 8][..], &[last]].concat(), 1));
        assert!(text.contains(&format!(" of a byte each: {said}")), "{text}");
    }
}

#[test]
fn edges_that_are_accepted() {
    let plans: [(u32, &[u32], u32); 6] = [
        (64, &[1; 64], 1),
        (64, &[0; 64], 1),
        (256, &[65_536], 256),
        (1024, &[65_536; 4], 256),
        (1, &[256], 256),
        (1024, &[1024], 1),
    ];
    for (chunks, counts, ratchet) in plans {
        let text = words(chunks, counts, 0);
        let expected = format!("The least N that lasts is {ratchet}: ");
        assert!(text.starts_with(&expected), "{text}");
        let json = json(chunks, counts, 0);
        assert!(json.contains(&format!(",\"ratchet\":{ratchet},")), "{json}");
    }
}

#[test]
fn rule_25() {
    let refused: [(u32, &[u32], &str); 9] = [
        (64, &[0; 65], "There are 65 counts."),
        (256, &[65_537], "A count is 65,537."),
        (
            256,
            &[7, 65_536, u32::MAX, 65_537],
            "A count is 4,294,967,295.",
        ),
        (0, &[1], "The chunk count is 0."),
        (0, &[], "The chunk count is 0."),
        (1025, &[1], "The chunk count is 1,025."),
        (u32::MAX, &[1], "The chunk count is 4,294,967,295."),
        (0, &[65_537; 65], "There are 65 counts."),
        (0, &[65_537; 64], "A count is 65,537."),
    ];
    for (chunks, counts, detail) in refused {
        let expected = format!("REFUSED by rule 25: {RULE}. {detail}");
        assert_eq!(joined(&words(chunks, counts, 1)), expected);
        let listed: Vec<String> = counts.iter().map(u32::to_string).collect();
        let expected = format!(
            "{{\"verdict\":\"refused\",\"rule\":25,\"reason\":\"{RULE}\",\
             \"detail\":\"{detail}\",\"chunks\":{chunks},\"counts\":[{}],\"ratchet\":null,\
             \"taken\":null,\"left\":null,\"table\":null,\"card\":null}}\n",
            listed.join(",")
        );
        assert_eq!(json(chunks, counts, 1), expected);
    }
}
