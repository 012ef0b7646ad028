//! Open, append, close and restart by the library, on lent copies with guards.

use pahyndoi::model::{self, Call, Position};
use pahyndoi::{State, append_raw, close_raw, open_raw, restart_raw};

use crate::device::Device;
use crate::lent::{Lent, Stand, assert_only_read};

const GUARD: u8 = 0xa5;
const NUMBER_GUARD: u32 = 0xa5a5_a5a5;
const STATE_GUARD: State = State {
    chunk: NUMBER_GUARD,
    offset: NUMBER_GUARD,
    key: [GUARD; 32],
    lengths: [NUMBER_GUARD; 8],
    seal_length: 0xa5a5_a5a5_a5a5_a5a5,
};

/// The packed answer, and what the call left of what it was lent. Fails where
/// the call wrote elsewhere.
pub fn perform(stand: Stand, device: &Device, call: &Call) -> (u64, Device) {
    let mut loan = Loan::new(stand, device);
    let answer = match call {
        Call::Open {
            log_lengths,
            seal_length,
        } => loan.open(log_lengths, *seal_length),
        Call::Append { phase, data } => loan.append(*phase, data),
        Call::Close => loan.close(),
        Call::Restart { number } => loan.restart(*number),
    };
    (answer, loan.give_back())
}

struct Loan {
    stand: Stand,
    state: Lent<State>,
    store: Lent<u8>,
    logs: Lent<u8>,
    seal: Lent<u8>,
}

impl Loan {
    fn new(stand: Stand, device: &Device) -> Loan {
        Loan {
            stand,
            state: Lent::new(&[raw(&device.state)], STATE_GUARD, stand),
            store: Lent::new(&device.material.store, GUARD, stand),
            logs: Lent::new(&device.material.log_memory, GUARD, stand),
            seal: Lent::new(&device.material.seal_memory, GUARD, stand),
        }
    }

    fn open(&mut self, log_lengths: &[u32], seal_length: u64) -> u64 {
        let lengths = Lent::new(log_lengths, NUMBER_GUARD, self.stand);
        let answer = open_raw(
            &mut self.state.content_mut()[0],
            self.store.content(),
            self.logs.content(),
            lengths.content(),
            self.seal.content(),
            seal_length,
        );
        assert_only_read(lengths, log_lengths);
        answer
    }

    fn append(&mut self, phase: u8, data: &[u8]) -> u64 {
        let lent = Lent::new(data, GUARD, self.stand);
        let answer = append_raw(
            &mut self.state.content_mut()[0],
            self.store.content_mut(),
            self.logs.content_mut(),
            self.seal.content_mut(),
            phase,
            lent.content(),
        );
        assert_only_read(lent, data);
        answer
    }

    fn close(&mut self) -> u64 {
        close_raw(
            &mut self.state.content_mut()[0],
            self.store.content(),
            self.logs.content(),
            self.seal.content_mut(),
        )
    }

    fn restart(&mut self, number: u32) -> u64 {
        restart_raw(
            &mut self.state.content_mut()[0],
            self.store.content_mut(),
            self.logs.content(),
            self.seal.content_mut(),
            number,
        )
    }

    fn give_back(self) -> Device {
        Device {
            material: model::Material {
                store: self.store.give_back(),
                log_memory: self.logs.give_back(),
                seal_memory: self.seal.give_back(),
            },
            state: told(&self.state.give_back()[0]),
        }
    }
}

fn raw(state: &model::State) -> State {
    State {
        chunk: state.position.chunk,
        offset: state.position.offset,
        key: state.held_key,
        lengths: state.log_lengths,
        seal_length: state.seal_length,
    }
}

fn told(state: &State) -> model::State {
    model::State {
        position: Position {
            chunk: state.chunk,
            offset: state.offset,
        },
        held_key: state.key,
        log_lengths: state.lengths,
        seal_length: state.seal_length,
    }
}
