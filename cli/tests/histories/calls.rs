//! One call by the library and by the model, compared.

use pahyndoi::model::{self, Call, Material};

use crate::answer::split;
use crate::device::Device;
use crate::lent::Stand;
use crate::library;

pub fn name(call: &Call) -> &'static str {
    match call {
        Call::Open { .. } => "open",
        Call::Append { .. } => "append",
        Call::Close => "close",
        Call::Restart { .. } => "restart",
    }
}

/// The call without its data, which the case's number gives again.
pub fn describe(call: &Call) -> String {
    match call {
        Call::Append { phase, data } => format!("append of {} bytes, phase {phase}", data.len()),
        _ => format!("{call:?}"),
    }
}

/// Makes the call by both and gives the packed answer. Fails where they differ
/// in the answer, the state or any byte.
pub fn compare(stand: Stand, device: &mut Device, call: &Call) -> u64 {
    let before = device.clone();
    let (answer, after) = library::perform(stand, &before, call);
    let expected = by_model(device, call);
    assert_eq!(split(answer), split(expected), "answers: ours, model's");
    assert_eq!(after.state, device.state, "states: ours, model's");
    assert_same_material(&after.material, &device.material);
    if split(answer).0 != 0 {
        assert_refused(&after, &before, call);
    }
    answer
}

/// Whether the call has sealed an entry or a restart.
pub fn has_sealed(call: &Call, answer: u64) -> bool {
    matches!(call, Call::Append { .. } | Call::Restart { .. }) && split(answer).0 == 0
}

/// Whether a refused open has left a state of zeros.
pub fn lost_state(call: &Call, answer: u64) -> bool {
    matches!(call, Call::Open { .. }) && split(answer).0 != 0
}

fn by_model(device: &mut Device, call: &Call) -> u64 {
    let Device { material, state } = device;
    call.make(model::plain_hmac, material, state).packed()
}

pub fn assert_same_material(ours: &Material, models: &Material) {
    assert_same_bytes("store", &ours.store, &models.store);
    assert_same_bytes("log memory", &ours.log_memory, &models.log_memory);
    assert_same_bytes("seal memory", &ours.seal_memory, &models.seal_memory);
}

fn assert_same_bytes(name: &str, ours: &[u8], models: &[u8]) {
    assert_eq!(ours.len(), models.len(), "length of the {name}");
    if ours != models {
        let mut pairs = ours.iter().zip(models);
        let place = pairs.position(|(one, other)| one != other);
        panic!("the {name} differs from byte {place:?} on");
    }
}

/// A refused call gives 0 and leaves all as it was; an open's state is zeros.
fn assert_refused(after: &Device, before: &Device, call: &Call) {
    assert_same_material(&after.material, &before.material);
    let expected = match call {
        Call::Open { .. } => model::State::default(),
        _ => before.state,
    };
    assert_eq!(after.state, expected, "state after a refusal");
}
