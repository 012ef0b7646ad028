//! Section 9: its refusals have the numbers and the words of the header and of
//! the tool, and each call checks those that the header lists for it.

use pahyndoi::Refusal;

use crate::page;

const REFUSALS: u32 = 9;
const HEADER: &str = include_str!("../../../include/pahyndoi.h");

/// The calls with a list of rules in the header, and their names on the page.
const LISTED: [(&str, &str); 7] = [
    ("hmac_sha256", "HMAC"),
    ("open", "open"),
    ("append", "append"),
    ("close", "close"),
    (RESTART, "restart"),
    ("audit", "audit"),
    ("least_ratchet", "least_ratchet"),
];

/// The one call that checks its rules in another order than the page's list.
const RESTART: &str = "restart";

/// The rows of the page's list: number, words, condition, calls, item.
fn rows() -> Vec<Vec<&'static str>> {
    let heading = "| rule | in words | exactly | checked by | item named |";
    page::table(page::section(REFUSALS), heading)
}

fn number_of(row: &[&str]) -> u32 {
    row[0].parse().expect("a number")
}

/// Numbers and words in the header's enum: a comment, then a name with its
/// number.
fn in_the_header() -> Vec<(u32, String)> {
    let (_, rest) = HEADER.split_once("enum pahyndoi_refusal {").expect("enum");
    let (list, _) = rest.split_once("};").expect("the enum's end");
    list.split("/*").skip(1).map(enumerator).collect()
}

fn enumerator(part: &str) -> (u32, String) {
    let (comment, name) = part.split_once("*/").expect("a comment");
    let words: Vec<&str> = comment.split_whitespace().collect();
    let sentence = words.join(" ");
    let sentence = sentence.strip_suffix('.').expect("a sentence");
    let (first, others) = sentence.split_at(1);
    let (_, number) = name.split_once(" = ").expect("a number");
    let number = number.trim().trim_end_matches(',');
    (
        number.parse().expect("a number"),
        first.to_lowercase() + others,
    )
}

/// The rules that the header lists, in order, for each call that has a list.
fn listed_in_the_header() -> Vec<(String, Vec<u32>)> {
    let lists = HEADER.split("Refused in this order: ").skip(1);
    lists
        .map(|text| {
            let (_, declaration) = text.split_once("_t pahyndoi_").expect("a call");
            let (call, _) = declaration.split_once('(').expect("its name");
            let sentence = text.split(['(', '.']).next().expect("a list");
            (call.to_string(), numbers(sentence))
        })
        .collect()
}

/// The numbers in a sentence; "2 to 5" are four of them.
fn numbers(sentence: &str) -> Vec<u32> {
    let mut numbers: Vec<u32> = Vec::new();
    let mut range = false;
    for word in sentence.split([' ', ',', ';', '\n', '*']) {
        match word.parse() {
            Ok(number) if range => {
                let last = *numbers.last().expect("the range's first");
                numbers.extend(last + 1..=number);
            }
            Ok(number) => numbers.push(number),
            Err(_) => {}
        }
        range = word == "to";
    }
    numbers
}

#[test]
fn page_header_and_tool_say_the_same() {
    let page: Vec<(u32, String)> = rows()
        .iter()
        .map(|row| (number_of(row), row[1].to_string()))
        .collect();
    let tool: Vec<(u32, String)> = (1..=27)
        .map(|number| (number, Refusal(number).meaning().to_string()))
        .collect();
    assert_eq!(page, tool);
    assert_eq!(in_the_header(), tool);
}

#[test]
fn calls_check_what_the_header_lists() {
    let rows = rows();
    let lists = listed_in_the_header();
    let calls: Vec<&str> = lists.iter().map(|(call, _)| call.as_str()).collect();
    assert_eq!(calls, LISTED.map(|(call, _)| call));
    for ((call, listed), (_, name)) in lists.iter().zip(LISTED) {
        let checked = rows.iter().filter(|row| row[3].contains(name));
        let checked: Vec<u32> = checked.map(|row| number_of(row)).collect();
        let mut listed = listed.clone();
        if call == RESTART {
            listed.sort();
        }
        assert_eq!(checked, listed, "{call}");
    }
}

/// As the page says below its list.
#[test]
fn restart_checks_27_before_10() {
    let (_, text) = page::section(REFUSALS)
        .split_once(" and restart ")
        .expect("its rules");
    let (sentence, _) = text.split_once(", in this order").expect("their end");
    let lists = listed_in_the_header();
    let listed = lists.into_iter().find(|(call, _)| call == RESTART);
    assert_eq!(
        listed.map(|(_, rules)| rules),
        Some(vec![2, 3, 6, 27, 10, 11])
    );
    assert_eq!(numbers(sentence), [2, 3, 6, 27, 10, 11]);
}

#[test]
fn items_are_named_from_15_to_21() {
    for row in rows() {
        let named = (15..=21).contains(&number_of(&row));
        assert_eq!(row[4], if named { "k" } else { "no" }, "{row:?}");
    }
}
