//! A call of the interface as a value, so that one input can go through two implementations.

/// A call with its plain arguments; slices are lent beside it.
#[derive(Clone, Copy, Debug)]
pub enum Call {
    Check,
    /// The state is written into the buffer.
    CheckStart,
    /// The image is the piece.
    CheckPiece,
    CheckAnswer,
    FindStuck,
    CountWords {
        length: u64,
    },
    PrintPlan,
    ReadRecord {
        offset: usize,
    },
    WriteRecord {
        kind: u8,
        fields: [u8; 4],
        word: u64,
    },
    DeviceStart,
    DeviceTurn {
        module: u8,
    },
    DeviceRespond {
        module: u8,
        event: u8,
    },
    DeviceTick {
        module: u8,
        sensor: u8,
        litres: f64,
    },
    ModuleStart {
        module: u8,
    },
    ModuleStep {
        module: u8,
    },
    ModuleDeliver {
        module: u8,
    },
    ModuleRespond {
        module: u8,
        event: u8,
    },
    ModuleTick {
        module: u8,
        sensor: u8,
        litres: f64,
    },
    SupervisorStart {
        supervisor: u8,
    },
    SupervisorStep {
        supervisor: u8,
    },
    SupervisorDeliver {
        supervisor: u8,
    },
    ReadMessage,
    WriteMessage {
        kind: u8,
        first: u8,
        second: u8,
        event: u8,
        mask: u64,
    },
}

/// An implementation of the interface. Slices that a call does not take are not looked at.
pub trait Engine {
    fn call(&self, call: Call, image: &[u8], state: &mut [u8], message: &[u8], buffer: &mut [u8]) -> u64;
}

/// The reference itself.
#[derive(Clone, Copy, Debug)]
pub struct Reference;

impl Engine for Reference {
    fn call(&self, call: Call, image: &[u8], state: &mut [u8], message: &[u8], buffer: &mut [u8]) -> u64 {
        match call {
            Call::Check => crate::check(image),
            Call::CheckStart => crate::check_start(buffer),
            Call::CheckPiece => crate::check_piece(state, image),
            Call::CheckAnswer => crate::check_answer(state),
            Call::FindStuck => crate::find_stuck(image, buffer),
            Call::CountWords { length } => crate::count_words(image, length, buffer),
            Call::PrintPlan => crate::print_plan(image, buffer),
            Call::ReadRecord { offset } => crate::read_record(image, offset),
            Call::WriteRecord {
                kind,
                fields: [a, b, c, d],
                word,
            } => crate::write_record(kind, a, b, c, d, word, buffer),
            Call::DeviceStart => crate::device_start(image, buffer),
            Call::DeviceTurn { module } => crate::device_turn(image, state, module),
            Call::DeviceRespond { module, event } => crate::device_respond(image, state, module, event),
            Call::DeviceTick { module, sensor, litres } => crate::device_tick(image, state, module, sensor, litres),
            Call::ModuleStart { module } => crate::module_start(image, module, buffer),
            Call::ModuleStep { module } => crate::module_step(image, state, module, buffer),
            Call::ModuleDeliver { module } => crate::module_deliver(image, state, module, message),
            Call::ModuleRespond { module, event } => crate::module_respond(image, state, module, event),
            Call::ModuleTick { module, sensor, litres } => crate::module_tick(image, state, module, sensor, litres),
            Call::SupervisorStart { supervisor } => crate::supervisor_start(image, supervisor, buffer),
            Call::SupervisorStep { supervisor } => crate::supervisor_step(image, state, supervisor, buffer),
            Call::SupervisorDeliver { supervisor } => crate::supervisor_deliver(image, state, supervisor, message),
            Call::ReadMessage => crate::read_message(message),
            Call::WriteMessage {
                kind,
                first,
                second,
                event,
                mask,
            } => crate::write_message(kind, first, second, event, mask, buffer),
        }
    }
}
