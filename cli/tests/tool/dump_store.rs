//! `pahyndoi dump` of a key store.

use pahyndoi::model::Set;

use crate::folder::Folder;
use crate::material::{set, sets_out_of_range, small, small_with, store, store_with};
use crate::run::{assert_narrow, joined, run};

fn dump(name: &str, store: &[u8], status: i32) -> String {
    let folder = Folder::new(&format!("dump-store/{name}"));
    let text = run(&["dump", &folder.write("device.store", store)]).ended(status);
    assert_narrow(&text);
    text
}

#[test]
fn store_of_kind_6() {
    let expected = "\
Key store of kind 6, 59 bytes.

  id            0102030405060708
  phases        1
  chunks        1, 0 of them burned
  ratchet       1 key from each chunk, 1 in all
  tag length    16 bytes; an entry takes 34 bytes, a filler 25, a restart 29
  data limit    1 byte
  log capacity  512 bytes; the log memory takes 512
";
    let store = store_with(set(16, 1, 512), 1, 1, 1);
    assert_eq!(dump("smallest", &store, 0), expected);
    let expected = "\
Key store of kind 6, 32,795 bytes.

  id            0102030405060708
  phases        8
  chunks        1,024, 4 of them burned
  ratchet       256 keys from each chunk, 262,144 in all
  tag length    32 bytes; an entry takes 50 bytes, a filler 41, a restart 45
  data limit    4,096 bytes
  log capacity  65,536 bytes; the log memory takes 524,288
";
    // Every 256th chunk is of zeros.
    let store = store_with(set(32, 4096, 65_536), 8, 1024, 256);
    assert_eq!(dump("largest", &store, 0), expected);
}

#[test]
fn store_of_kind_1() {
    let expected = "\
Key store of kind 1, 114 bytes.

  id            0102030405060708
  phases        2
  chunks        3, 2 of them burned
  ratchet       3 keys from each chunk, 9 in all
  tag length    32 bytes; an entry takes 50 bytes, a filler 41, a restart 45
  data limit    512 bytes
  log capacity  8,192 bytes; the log memory takes 16,384
";
    assert_eq!(dump("kind-1", &small().device, 0), expected);
}

/// The set alone does not make the kind.
#[test]
fn same_set_of_kind_6() {
    let [one, other] = [store(2, 3, 3), store_with(Set::COMMON, 2, 3, 3)];
    let one = dump("same-1", &one, 0).replace("kind 1, 114", "kind 6, 123");
    assert_eq!(dump("same-6", &other, 0), one);
}

#[test]
fn burned_chunks_of_kind_6() {
    let text = dump("burned", &small_with(set(16, 4096, 4096)).device, 0);
    assert!(
        text.contains("  chunks        3, 2 of them burned\n"),
        "{text}"
    );
}

fn json(name: &str, store: &[u8], status: i32) -> String {
    let folder = Folder::new(&format!("dump-store/json-{name}"));
    run(&["dump", "--json", &folder.write("device.store", store)]).ended(status)
}

#[test]
fn json_of_stores() {
    let expected = "{\"content\":\"store\",\"kind\":6,\"id\":\"0102030405060708\",\"phases\":2,\
                    \"chunks\":3,\"burned\":2,\"ratchet\":3,\"set\":{\"tag_length\":16,\
                    \"data_limit\":4096,\"log_capacity\":4096},\"detail\":null}\n";
    let device = small_with(set(16, 4096, 4096)).device;
    assert_eq!(json("6", &device, 0), expected);
    let expected = "{\"content\":\"store\",\"kind\":1,\"id\":\"0102030405060708\",\"phases\":1,\
                    \"chunks\":4,\"burned\":0,\"ratchet\":5,\"set\":{\"tag_length\":32,\
                    \"data_limit\":512,\"log_capacity\":8192},\"detail\":null}\n";
    assert_eq!(json("1", &store(1, 4, 5), 0), expected);
    let expected = "{\"content\":\"store\",\"kind\":null,\"id\":null,\"phases\":null,\
                    \"chunks\":null,\"burned\":null,\"ratchet\":null,\"set\":null,\"detail\":\
                    \"Damaged: the store names 0 as its data limit, and 1 to 4,096 are \
                    possible.\"}\n";
    let wrong = store_with(set(16, 0, 4096), 1, 1, 1);
    assert_eq!(json("damaged", &wrong, 1), expected);
}

#[test]
fn wrong_sets() {
    for (set, reason) in sets_out_of_range() {
        let text = dump("range", &store_with(set, 1, 1, 1), 1);
        let expected = format!("Damaged: the store {reason}.");
        assert_eq!(joined(&text), expected);
    }
}

#[test]
fn short_and_long_stores() {
    let store = store_with(set(16, 1, 512), 1, 1, 1);
    for (length, reason) in [
        (1, "has 1 byte, and its header takes 27"),
        (26, "has 26 bytes, and its header takes 27"),
        (27, "has 27 bytes, not the 59 of a header and 1 chunk"),
        (58, "has 58 bytes, not the 59 of a header and 1 chunk"),
        (60, "has 60 bytes, not the 59 of a header and 1 chunk"),
    ] {
        let mut bytes = store.clone();
        bytes.resize(length, 7);
        let expected = format!("Damaged: the store {reason}.\n");
        assert_eq!(dump("length", &bytes, 1), expected);
    }
}
