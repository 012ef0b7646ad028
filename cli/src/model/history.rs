//! What a history is a list of, and which lists are histories: by what the
//! account refuses, and by what the calls themselves refuse.

use super::account::Account;
use super::sealing::{State, append, close, open, restart};
use super::{Answer, Hmac, Material};

/// A call without what the calls before it left.
#[derive(Clone, Debug, PartialEq, Eq)]
pub enum Call {
    Open {
        log_lengths: Vec<u32>,
        seal_length: u64,
    },
    Append {
        phase: u8,
        data: Vec<u8>,
    },
    Close,
    Restart {
        number: u32,
    },
}

impl Call {
    /// Makes the call on a device and gives its answer.
    pub fn make(&self, hmac: Hmac, material: &mut Material, state: &mut State) -> Answer {
        match self {
            Call::Open {
                log_lengths,
                seal_length,
            } => {
                let (refusal, opened) = open(material, log_lengths, *seal_length);
                *state = opened;
                Answer { refusal, number: 0 }
            }
            Call::Append { phase, data } => append(hmac, material, state, *phase, data),
            Call::Close => close(hmac, material, state),
            Call::Restart { number } => restart(hmac, material, state, *number),
        }
    }
}

/// What a history is a list of.
#[derive(Clone, Debug, PartialEq, Eq)]
pub enum Event {
    /// The power is lost between two calls: the state becomes zeros.
    Cut,
    Call(Call),
}

/// Whether these events, begun on this material with a sealing state of zeros,
/// are a history.
pub fn is_history(hmac: Hmac, start: &Material, events: &[Event]) -> bool {
    let Some(mut account) = Account::start(start) else {
        return false;
    };
    events.iter().all(|event| {
        let allowed = account.allows(event);
        account.tell(hmac, event);
        allowed
    })
}

/// The same by the calls' own refusals: each event that the device does not
/// refuse is one that the account allows where it stands.
pub fn is_history_by_calls(hmac: Hmac, start: &Material, events: &[Event]) -> bool {
    let Some(mut account) = Account::start(start) else {
        return false;
    };
    let (mut material, mut state) = (start.clone(), State::default());
    events.iter().all(|event| {
        let is_refused = match event {
            Event::Cut => {
                state = State::default();
                false
            }
            Event::Call(call) => call.make(hmac, &mut material, &mut state).refusal != 0,
        };
        let allowed = is_refused || account.allows_unrefused(event);
        account.tell(hmac, event);
        allowed
    })
}
