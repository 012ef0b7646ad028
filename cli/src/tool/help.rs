//! The help of the tool and of each command.

pub const TOOL: &str = "\
Audits the sealed logs of traffic-signal controllers.

Usage: pahyndoi COMMAND [ARGUMENTS]

Commands:
  demo    seal a junction's day, audit it, and let an intruder at it
  audit   say whether the material in files is accepted, and if not, why
  item    say which item sealed a byte of a log, and show what it sealed
  dump    list the items of a seal file, or what a key store's header says
  pack    make a key store of header and key bytes
  plan    find what a card needs before it is packed
  help    say more about a command, as 'pahyndoi COMMAND --help' does

Flags in the place of a command:
  --help, -h      print this
  --version, -V   print the tool's name and version

A number may have commas as the tool prints it: 8192 or 8,192.

Exit status: 0 done or accepted, 1 refused, damaged or a card that does not
last, 2 bad usage, or a file or an output that can't be read or written.
";

pub const DEMO: &str = "\
Seals a junction's day of counts through the proved library, with a power cut in
it, and audits it; then an intruder alters the material in several ways, and
each is audited. The demo's keys come from a fixed seed: they are not random.

Usage: pahyndoi demo [--out FOLDER]

  --out FOLDER    also write the untouched material into FOLDER, for 'audit',
                  'item' and 'dump'; where one of these files is there already
                  it is left alone, and nothing is done

Exit status: 0, or 2 for bad usage, or a file or an output that can't be
written.
";

pub const AUDIT: &str = "\
Audits what a controller brought home. The verdict is that of the proved audit.

Usage: pahyndoi audit [FOLDER] [FLAGS]

In FOLDER are looked for, and each flag names another file instead:
  --device FILE   device.store, the controller's key store as it came home
  --auditor FILE  auditor.store, the copy of the unused store
  --logs FILE     logs.bin, the log memory: for each phase the log capacity of
                  the store, 8,192 bytes with kind 1
  --lengths FILE  lengths.bin, the log lengths: 4 bytes a phase, little-endian
  --seal FILE     seal.bin, the seal file

  --json          print one JSON object: verdict, items (the count when
                  accepted), restarts (when accepted; of item, chunk, and
                  number, how many items the chunk before has), rule, item,
                  reason, detail, files (their names; a byte that is no UTF-8 is
                  written as \\xff, a backslash as two); with exit status 2 there
                  is none, only the error for people
  --no-picture    leave out the picture of what the items cover

A restart in accepted material says that the power was lost behind the item
before it, and the keys left in that item's chunk with it. Whoever has taken the
controller can make that up, and drop what was sealed behind the first item of
the last burned chunk; what stands up to that item can't be dropped.

At most 64 MiB (67,108,864 bytes) of a file are read; a longer one is an error.
The longest seal file that can be accepted has 13,107,200 bytes.

Exit status: 0 accepted, 1 refused, 2 bad usage, a file that can't be read, or
an output that can't be written.
";

pub const ITEM: &str = "\
Says which item sealed a byte of a log, and shows all the data that it sealed.
The answer is that of the proved lookup: the material is audited first, and what
'audit' refuses is refused in the same words; then a byte that no log has is
refused by rule 24.

Usage: pahyndoi item [FOLDER] --phase P --offset O [FLAGS]

  --phase P       the phase, 1 for the first
  --offset O      the byte's offset in the phase's log, 0 for the first

In FOLDER are looked for, and each flag names another file instead:
  --device FILE   device.store, the controller's key store as it came home
  --auditor FILE  auditor.store, the copy of the unused store
  --logs FILE     logs.bin, the log memory: for each phase the log capacity of
                  the store, 8,192 bytes with kind 1
  --lengths FILE  lengths.bin, the log lengths: 4 bytes a phase, little-endian
  --seal FILE     seal.bin, the seal file

  --json          print one JSON object: verdict, rule, item (the one found, or
                  the one refused), reason, detail, phase, offset, place (the
                  item's first byte in the seal file), chunk, ratchet, area
                  (phase, offset, length), data (text, null if not UTF-8;
                  hexadecimal; index, of the byte asked for), files (their
                  names; a byte that is no UTF-8 is written as \\xff, a backslash
                  as two); with exit status 2 there is none, only the error for
                  people

In text, bytes that are not printable ASCII are written as \\n, \\t, \\r or \\xff,
and a backslash as two. A row of text ends with its line or after 64 columns.

At most 64 MiB (67,108,864 bytes) of a file are read; a longer one is an error.

Exit status: 0 found, 1 refused, 2 bad usage, a file that can't be read, or an
output that can't be written.
";

pub const DUMP: &str = "\
Lists the items of a seal file: number, kind, phase, offset and data length in
the phase's log, chunk number, ratchet offset, and the first bytes of the tag.
In place of offset and length a restart, which follows a loss of power, has a
number: how many items the chunk before it has. No tag is checked; that takes an
audit.

Of a key store, which the first byte of FILE tells (1 or 6), it says what the
header says: id, phases, chunks and how many are burned, ratchet, and the set of
parameters (tag length, data limit, log capacity). No key is shown.

Usage: pahyndoi dump FILE [--store STORE] [--json]

  --store STORE   the key store, used or not, with which the seal file FILE was
                  sealed: its set says how long a tag is; without it, tags are
                  read as of 32 bytes, which a store of kind 1 has

  --json          print one JSON object: of a seal file content (seal), set
                  (tag_length, data_limit, log_capacity), items (of item, kind,
                  place in the file, chunk, ratchet, area, null but of an entry,
                  number, null but of a restart, and tag), detail (the damage,
                  else null); of a key store content (store), kind, id, phases,
                  chunks, burned, ratchet, set, detail; with exit status 2 there
                  is none, only the error for people

At most 64 MiB (67,108,864 bytes) are read; a longer file is an error.

Exit status: 0 all is listed, 1 the file is damaged (a seal file is listed up to
there, with byte and cause), 2 bad usage, a file that can't be read, or an
output that can't be written.
";

pub const PACK: &str = "\
Makes a key store of header and key bytes. Make two copies: one for the
controller, which burns it in use, and one for the auditor, kept unused.

Usage: pahyndoi pack --id HEX --phases P --chunks C --ratchet N
                     --keys FILE --out FILE [--force]
                     [--tag-length T] [--data-limit D] [--log-capacity L]

  --id HEX          8 bytes that name the controller, 16 hexadecimal digits
  --phases P        1 to 8
  --chunks C        1 to 1024
  --ratchet N       keys made from each chunk, 1 to 256
  --keys FILE       the chunks: 32 bytes each, C of them, all different and none
                    all zeros
  --out FILE        where the store goes, never the file of the keys
  --force           replace FILE if it is there: a new file, its owner's alone,
                    takes its place once it is written whole; a link, what else
                    is no regular file, and what is write-protected are left as
                    they are

  --tag-length T    bytes of an item's tag, 16 to 32
  --data-limit D    the most bytes of an entry's data, 1 to 4096
  --log-capacity L  bytes of each phase's log, 512 to 65536, not below D

With any of the last three the store is of kind 6 and carries this set of
parameters; those left out are T = 32, D = 512, L = 8192. Without them it is of
kind 1, which always has these three.

The id is a part of every message that is sealed. Give each controller its own,
a standby with the same keys too: with one id for both, what one of them sealed
passes as the other's. Both copies of a store have the same id.

No keys are made here. FILE's bytes must be random and secret, from a source
that you trust; whoever knows them can forge seals. No two chunks of a store may
be equal: whoever takes the controller finds in the one not burned yet the keys
of the burned one, and can forge what they sealed.

Exit status: 0, or 2 for bad usage, keys that are refused, or a file or an
output that can't be read or written.
";

pub const PLAN: &str = "\
Finds what a card needs before it is packed.

Usage: pahyndoi plan COMMAND [ARGUMENTS]

Commands:
  ratchet   find the least ratchet with which a card's chunks last

'pahyndoi plan COMMAND --help' says more about a command.

Exit status: 0 found, 1 refused or none lasts, 2 bad usage, or an output that
can't be written.
";

pub const PLAN_RATCHET: &str = "\
Finds the least ratchet N, the keys made from each chunk, with which a card's
chunks last. The answer is that of the proved call; the numbers of chunks around
it are counted by the tool: a count takes count / N chunks, rounded up, as a
close uses up the chunk that is begun.

Usage: pahyndoi plan ratchet --chunks C [--json] COUNT..

  --chunks C      the chunks that fit the card, 1 to 1024
  COUNT           the entries between two closes, at most 65536; one COUNT for
                  each close to come, up to 64; without any, N is 1

  --json          print one JSON object: verdict (found, none or refused), rule,
                  reason, detail, chunks, counts, ratchet (null if none lasts),
                  taken and left (chunks, with that ratchet), table (of ratchet,
                  chunks, lasts), card (if none lasts, the fewest chunks that
                  do; null if no card has them); with exit status 2 there is
                  none, only the error for people

In the table > marks the answer. Where no N from 1 to 256 lasts, it says which
card has chunks enough. More counts, larger ones and other numbers of chunks are
refused by rule 25.

The plan is of chunks alone. The logs of a card of kind 1 take 8,192 bytes a
phase, so never more than 65,536 entries; a longer plan is answered, and what
logs it takes is said. In the seal memory an entry takes 18 bytes and its tag, a
filler 9 and its tag, a restart 13 and its tag; with kind 1 that is 50, 41 and
45.

It knows of no power cuts. Count each that you reckon with as a close, and the
restart behind it as an entry.

Exit status: 0 found, 1 refused or none lasts, 2 bad usage, or an output that
can't be written.
";

#[cfg(test)]
mod tests {
    use super::super::item::{entry_length, filler_length, restart_length};
    use super::super::set::{DATA_LIMITS, LOG_CAPACITIES, Set, TAG_LENGTHS};
    use super::super::text::grouped;
    use super::*;

    fn assert_says(help: &str, words: &str) {
        assert!(help.contains(words), "{words}");
    }

    #[test]
    fn ranges_of_a_set() {
        for range in [TAG_LENGTHS, DATA_LIMITS, LOG_CAPACITIES] {
            let words = format!(", {} to {}", range.start(), range.end());
            assert_says(PACK, &words);
        }
    }

    #[test]
    fn set_of_kind_1() {
        let Set {
            tag_length,
            data_limit,
            log_capacity,
        } = Set::COMMON;
        let words = format!("T = {tag_length}, D = {data_limit}, L = {log_capacity}.");
        assert_says(PACK, &words);
        assert_says(DUMP, &format!("read as of {tag_length} bytes"));
        let capacity = grouped(log_capacity.into());
        for help in [AUDIT, ITEM] {
            assert_says(help, &format!("the store, {capacity} bytes with kind 1"));
        }
        assert_says(PLAN_RATCHET, &format!("kind 1 take {capacity} bytes a"));
        let lengths = [entry_length, filler_length, restart_length];
        let [entry, filler, restart] = lengths.map(|length| length(Set::COMMON));
        let words = format!("with kind 1 that is {entry}, {filler} and\n{restart}.");
        assert_says(PLAN_RATCHET, &words);
    }
}
