//! The calls that answer a result: counts, refusals and what they leave.

use pahyndoi::{
    Material, Refusal, Rejected, State, append, audit, close, data_at, item_at, open, restart,
};

/// A kind of store, and what it says.
#[derive(Debug)]
struct Kind {
    kind: u8,
    /// The bytes between ratchet and chunks.
    set: &'static [u8],
    entry_length: u64,
    data_limit: usize,
    log_capacity: u32,
}

/// One of kind 1, and one of kind 6 with a set of its own.
static KINDS: [Kind; 2] = [
    Kind {
        kind: 1,
        set: &[],
        entry_length: 50,
        data_limit: 512,
        log_capacity: 8192,
    },
    Kind {
        kind: 6,
        set: &[17, 6, 0, 0, 0, 1, 2, 0, 0],
        entry_length: 35,
        data_limit: 6,
        log_capacity: 513,
    },
];

impl Kind {
    /// One phase, and two keys from each chunk.
    fn unused_store(&self, chunks: u8) -> Vec<u8> {
        let fields = [1, 2, 3, 4, 5, 6, 7, 8, 1, chunks, 0, 0, 0, 2, 0, 0, 0];
        let keys = (7..7 + chunks).flat_map(|byte| [byte; 32]);
        let mut store = [&[self.kind], &fields[..], self.set].concat();
        store.extend(keys);
        store
    }

    /// With an unused store of one chunk.
    fn device(&'static self, seal_memory: usize) -> Device {
        self.device_of(1, seal_memory)
    }

    fn device_of(&'static self, chunks: u8, seal_memory: usize) -> Device {
        let mut device = Device {
            kind: self,
            chunks,
            store: self.unused_store(chunks),
            logs: vec![0; self.log_capacity as usize],
            seal: vec![0; seal_memory],
            state: State::default(),
        };
        device.state = device.open(&[0], 0).expect("an unused store opens");
        device
    }
}

struct Device {
    kind: &'static Kind,
    chunks: u8,
    store: Vec<u8>,
    logs: Vec<u8>,
    seal: Vec<u8>,
    state: State,
}

impl Device {
    fn open(&self, lengths: &[u32], seal_length: u64) -> Result<State, Refusal> {
        open(&self.store, &self.logs, lengths, &self.seal, seal_length)
    }

    fn append(&mut self, phase: u8, data: &[u8]) -> Result<u64, Refusal> {
        let Device {
            store,
            logs,
            seal,
            state,
            ..
        } = self;
        append(state, store, logs, seal, phase, data)
    }

    fn close(&mut self) -> Result<u64, Refusal> {
        close(&mut self.state, &self.store, &self.logs, &mut self.seal)
    }

    fn restart(&mut self, number: u32) -> Result<u64, Refusal> {
        restart(
            &mut self.state,
            &mut self.store,
            &self.logs,
            &mut self.seal,
            number,
        )
    }

    /// Loses the state and opens with the lengths reached.
    fn lose_power(&mut self) {
        let State {
            lengths,
            seal_length,
            ..
        } = self.state;
        self.state = self.open(&lengths[..1], seal_length).expect("a store");
    }

    /// Hands the call what a compromised device and its auditor have.
    fn present<T>(&self, call: impl FnOnce(&Material) -> T) -> T {
        call(&Material {
            device_store: &self.store,
            auditor_store: &self.kind.unused_store(self.chunks),
            logs: &self.logs,
            lengths: &self.state.lengths[0].to_le_bytes(),
            seal_file: &self.seal[..self.state.seal_length as usize],
        })
    }

    fn audit(&self) -> Result<u64, Rejected> {
        self.present(audit)
    }

    /// What both lookups answer.
    fn look_up(&self, phase: u8, offset: u32) -> (Result<u64, Rejected>, Vec<u8>) {
        self.present(|material| {
            let data = data_at(material, phase, offset);
            (item_at(material, phase, offset), data.to_vec())
        })
    }
}

/// An unused device of each kind.
fn devices(seal_memory: usize) -> impl Iterator<Item = Device> {
    KINDS.iter().map(move |kind| {
        println!("{kind:?}");
        kind.device(seal_memory)
    })
}

/// A refusal that names no item.
fn rejected(number: u32) -> Rejected {
    Rejected {
        refusal: Refusal(number),
        item: None,
    }
}

#[test]
fn counts() {
    for mut device in devices(200) {
        assert_eq!(device.audit(), Ok(0));
        assert_eq!(device.append(1, b"first"), Ok(0));
        assert_eq!(device.close(), Ok(1));
        assert_eq!(device.close(), Ok(0));
        assert_eq!(device.audit(), Ok(2));
    }
}

#[test]
fn item_numbers_count_on() {
    for mut device in devices(200) {
        assert_eq!(device.append(1, b"first"), Ok(0));
        assert_eq!(device.append(1, b"second"), Ok(1));
        assert_eq!(device.append(1, b"third"), Err(Refusal(11)));
        assert_eq!(device.audit(), Ok(2));
    }
}

#[test]
fn refused_opens() {
    for mut device in devices(200) {
        assert_eq!(device.open(&[], 0), Err(Refusal(5)));
        let capacity = device.kind.log_capacity;
        assert!(device.open(&[capacity], 0).is_ok());
        assert_eq!(device.open(&[capacity + 1], 0), Err(Refusal(5)));
        assert_eq!(device.open(&[0], 201), Err(Refusal(6)));
        device.logs.pop();
        assert_eq!(device.open(&[0], 0), Err(Refusal(3)));
        device.store.pop();
        assert_eq!(device.open(&[0], 0), Err(Refusal(2)));
    }
}

#[test]
fn refused_appends_change_nothing() {
    for mut device in devices(60) {
        let longest = device.kind.data_limit;
        let before = (device.state, device.store.clone());
        assert_eq!(device.append(0, b"data"), Err(Refusal(7)));
        assert_eq!(device.append(2, b"data"), Err(Refusal(7)));
        assert_eq!(device.append(1, b""), Err(Refusal(8)));
        let longer = vec![0; longest + 1];
        assert_eq!(device.append(1, &longer), Err(Refusal(8)));
        assert_eq!((device.state, device.store.clone()), before);
        assert!(
            device
                .logs
                .iter()
                .chain(&device.seal)
                .all(|byte| *byte == 0)
        );
        assert_eq!(device.append(1, &vec![1; longest]), Ok(0));
        assert_eq!(device.append(1, b"data"), Err(Refusal(10)));
        assert_eq!(device.close(), Err(Refusal(10)));
    }
}

#[test]
fn unfit_states_and_full_logs() {
    for mut device in devices(200) {
        device.state.lengths[0] = device.kind.log_capacity - 2;
        assert_eq!(device.append(1, b"abc"), Err(Refusal(9)));
        device.state.offset = 1;
        assert_eq!(device.append(1, b"a"), Err(Refusal(6)));
        assert_eq!(device.close(), Err(Refusal(6)));
    }
}

/// As the header warns: the keys left in a half-used chunk go with the state,
/// and behind the last chunk there is none for a restart.
#[test]
fn state_lost_half_way_is_refused_by_the_audit() {
    for mut device in devices(200) {
        device.append(1, b"first").expect("a free key");
        device.lose_power();
        assert_eq!(device.close(), Ok(0));
        let rejected = device.audit().expect_err("a key that sealed nothing");
        assert_eq!(rejected.refusal, Refusal(22));
        assert_eq!(device.restart(1), Err(Refusal(11)));
    }
}

/// A device of each kind with four chunks.
fn longer_devices(seal_memory: usize) -> impl Iterator<Item = Device> {
    KINDS.iter().map(move |kind| kind.device_of(4, seal_memory))
}

#[test]
fn restart_goes_on_behind_a_cut() {
    for mut device in longer_devices(400) {
        device.append(1, b"first").expect("a free key");
        device.lose_power();
        assert_eq!(device.audit(), Err(rejected(22)));
        assert_eq!(device.restart(1), Ok(2));
        assert_eq!(device.audit(), Err(rejected(22)));
        assert_eq!(device.append(1, b"second"), Ok(3));
        assert_eq!(device.audit(), Ok(3));
        assert_eq!(device.look_up(1, 5), (Ok(2), b"second".to_vec()));
        // Cut at once behind the restart.
        device.append(1, b"third").expect("a free key");
        device.lose_power();
        assert_eq!(device.restart(1), Ok(6));
        device.lose_power();
        assert_eq!(device.restart(1), Err(Refusal(11)));
    }
}

/// Without a restart, or with one where no chunk was cut.
#[test]
fn restarts_missing_or_too_many_are_rejected() {
    let at_item = |item| Rejected {
        item: Some(item),
        ..rejected(17)
    };
    for mut device in longer_devices(400) {
        device.append(1, b"first").expect("a free key");
        device.lose_power();
        assert_eq!(device.append(1, b"second"), Ok(2));
        assert_eq!(device.audit(), Err(at_item(1)));
    }
    for mut device in longer_devices(400) {
        device.append(1, b"first").expect("a free key");
        device.append(1, b"second").expect("a free key");
        device.lose_power();
        assert_eq!(device.audit(), Ok(2));
        assert_eq!(device.restart(1), Ok(2));
        assert_eq!(device.close(), Ok(1));
        assert_eq!(device.audit(), Err(at_item(2)));
    }
}

#[test]
fn refused_restarts_change_nothing() {
    for mut device in longer_devices(0) {
        let entry = device.kind.entry_length as usize;
        device.seal.resize(entry + entry - 6, 0);
        assert_eq!(device.restart(1), Err(Refusal(27)));
        device.append(1, b"first").expect("a free key");
        assert_eq!(device.restart(1), Err(Refusal(27)));
        device.lose_power();
        let before = (device.state, device.store.clone(), device.seal.clone());
        for number in [0, 2, 255, u32::MAX] {
            assert_eq!(device.restart(number), Err(Refusal(27)));
        }
        // One byte is missing.
        assert_eq!(device.restart(1), Err(Refusal(10)));
        device.logs.pop();
        assert_eq!(device.restart(0), Err(Refusal(3)));
        device.logs.push(0);
        let unfit = State {
            offset: 1,
            ..device.state
        };
        let fit = std::mem::replace(&mut device.state, unfit);
        assert_eq!(device.restart(0), Err(Refusal(6)));
        device.state = fit;
        assert_eq!(
            (device.state, device.store.clone(), device.seal.clone()),
            before
        );
        device.seal.push(0);
        assert_eq!(device.restart(1), Ok(2));
    }
}

#[test]
fn rejected_names_rule_and_item() {
    for mut device in devices(200) {
        device.append(1, b"first").expect("a free key");
        let rejected = device.audit().expect_err("a half used chunk");
        assert_eq!((rejected.refusal, rejected.item), (Refusal(22), None));
        device.close().expect("a free seal memory");
        device.logs[0] ^= 1;
        let rejected = device.audit().expect_err("an altered log");
        assert_eq!((rejected.refusal, rejected.item), (Refusal(21), Some(0)));
        assert_eq!(
            rejected.to_string(),
            "refused by rule 21 at item 0: the item's tag is not the one that its key gives for \
             its message"
        );
    }
}

/// The same chunks under another id, and the same entries.
#[test]
fn items_of_a_standby_are_rejected() {
    for mut device in devices(200) {
        let mut standby = device.kind.device(200);
        standby.store[8] ^= 1;
        for sealing in [&mut device, &mut standby] {
            sealing.append(1, b"first").expect("a free key");
            sealing.append(1, b"second").expect("a free key");
        }
        assert_eq!(device.audit(), Ok(2));
        assert_eq!(standby.audit(), Err(rejected(13)));
        let at_item = |number| Rejected {
            item: Some(number),
            ..rejected(21)
        };
        let second = device.kind.entry_length as usize;
        device.seal[second..].copy_from_slice(&standby.seal[second..]);
        assert_eq!(device.audit(), Err(at_item(1)));
        device.seal = standby.seal;
        assert_eq!(device.audit(), Err(at_item(0)));
    }
}

/// A state whose log length is one below the length reached, or one above it.
#[test]
fn entries_off_the_covered_end_are_rejected() {
    for (length, number) in [(4, 19), (6, 20)] {
        for mut device in devices(200) {
            device.append(1, b"first").expect("a free key");
            device.state.lengths[0] = length;
            // Its first byte is the last one of the entry before.
            device.append(1, b"tenth").expect("a free key");
            let at_item = Rejected {
                item: Some(1),
                ..rejected(number)
            };
            assert_eq!(device.audit(), Err(at_item));
            for offset in [0, 5, length, length + 5] {
                assert_eq!(device.look_up(1, offset), (Err(at_item), Vec::new()));
            }
        }
    }
}

#[test]
fn lookups_name_the_item_and_its_data() {
    for mut device in devices(200) {
        device.append(1, b"first").expect("a free key");
        device.append(1, b"second").expect("a free key");
        for (offset, item, data) in [
            (0, 0, "first"),
            (4, 0, "first"),
            (5, 1, "second"),
            (10, 1, "second"),
        ] {
            let found = (Ok(item), data.as_bytes().to_vec());
            assert_eq!(device.look_up(1, offset), found, "offset {offset}");
        }
        for (phase, offset) in [(1, 11), (1, u32::MAX), (0, 0), (2, 0), (255, 0)] {
            let refused = (Err(rejected(24)), Vec::new());
            assert_eq!(device.look_up(phase, offset), refused);
        }
    }
}

/// The part is one of the logs lent, not a copy.
#[test]
fn data_are_lent_again() {
    for mut device in devices(200) {
        device.append(1, b"first").expect("a free key");
        device.append(1, b"second").expect("a free key");
        let second = device.logs[5..11].as_ptr_range();
        let found = device.present(|material| data_at(material, 1, 7).as_ptr_range());
        assert_eq!(found, second);
    }
}

#[test]
fn refused_lookups() {
    for mut device in devices(200) {
        assert_eq!(device.look_up(1, 0), (Err(rejected(24)), Vec::new()));
        device.append(1, b"first").expect("a free key");
        for offset in [0, 5] {
            assert_eq!(device.look_up(1, offset), (Err(rejected(22)), Vec::new()));
        }
        device.append(1, b"second").expect("a free key");
        device.logs[5] ^= 1;
        let at_item = Rejected {
            item: Some(1),
            ..rejected(21)
        };
        for offset in [0, 5, 11] {
            assert_eq!(device.look_up(1, offset), (Err(at_item), Vec::new()));
        }
        assert_eq!(
            rejected(24).to_string(),
            "refused by rule 24: the phase is not one of the store's, or the offset is not below \
             the phase's length"
        );
    }
}

/// Each part of the material may be empty.
#[test]
fn nothing_presented() {
    let nothing = Material {
        device_store: &[],
        auditor_store: &[],
        logs: &[],
        lengths: &[],
        seal_file: &[],
    };
    assert_eq!(audit(&nothing), Err(rejected(2)));
    for device in devices(0) {
        let store = &device.store[..];
        let logs = &device.logs[..];
        let with_store = Material {
            device_store: store,
            ..nothing
        };
        let with_logs = Material { logs, ..with_store };
        let with_lengths = Material {
            lengths: &[0; 4],
            ..with_logs
        };
        let with_auditor = Material {
            auditor_store: store,
            ..with_lengths
        };
        for (material, number) in [
            (nothing, 2),
            (with_store, 3),
            (with_logs, 5),
            (with_lengths, 12),
            (with_auditor, 24),
        ] {
            assert_eq!(item_at(&material, 1, 0), Err(rejected(number)));
            assert!(data_at(&material, 1, 0).is_empty());
        }
        assert_eq!(audit(&with_auditor), Ok(0));
    }
}

/// The two kinds with one set in effect: each is read, and one is not the other.
#[test]
fn kinds_are_not_each_other() {
    let fields = [1, 2, 3, 4, 5, 6, 7, 8, 1, 1, 0, 0, 0, 1, 0, 0, 0];
    let set: &[u8] = &[32, 0, 2, 0, 0, 0, 32, 0, 0];
    let of_kind_1 = [&[1], &fields[..], &[7; 32]].concat();
    let of_kind_6 = [&[6], &fields[..], set, &[7; 32]].concat();
    for device_store in [&of_kind_1, &of_kind_6] {
        for auditor_store in [&of_kind_1, &of_kind_6] {
            let material = Material {
                device_store,
                auditor_store,
                logs: &[0; 8192],
                lengths: &[0; 4],
                seal_file: &[],
            };
            let expected = match device_store == auditor_store {
                true => Ok(0),
                false => Err(rejected(13)),
            };
            assert_eq!(audit(&material), expected);
        }
    }
}
