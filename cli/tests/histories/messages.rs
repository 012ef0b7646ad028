//! How a forger who knows every key puts messages together: as the format has
//! them, or otherwise.

use pahyndoi::model::{HMAC_LENGTH, plain_hmac};

#[derive(Clone, Copy, Debug, PartialEq, Eq)]
pub enum Message {
    Right,
    WithoutId,
    IdBehindHead,
    IdBehindData,
    OtherId([u8; 8]),
}

impl Message {
    /// All but the right one.
    pub fn wrong(other_id: [u8; 8]) -> [Message; 4] {
        [
            Message::WithoutId,
            Message::IdBehindHead,
            Message::IdBehindData,
            Message::OtherId(other_id),
        ]
    }

    /// The whole tag of such a message, or the key that it makes.
    pub fn tag(self, id: &[u8; 8], key: &[u8], head: &[u8], data: &[u8]) -> [u8; HMAC_LENGTH] {
        match self {
            Message::Right => plain_hmac(key, &[id, head, data]),
            Message::WithoutId => plain_hmac(key, &[head, data]),
            Message::IdBehindHead => plain_hmac(key, &[head, id, data]),
            Message::IdBehindData => plain_hmac(key, &[head, data, id]),
            Message::OtherId(other) => plain_hmac(key, &[&other, head, data]),
        }
    }
}

/// The messages of items, and those of the ratchet.
#[derive(Clone, Copy, Debug)]
pub struct Rules {
    pub items: Message,
    pub ratchet: Message,
}

impl Rules {
    pub const RIGHT: Rules = Rules {
        items: Message::Right,
        ratchet: Message::Right,
    };
}
