//! The proved engine behind its C interface. The only unsafe code of this package: calls that pass on each slice as its pointer and
//! length, as the header asks.

use reference::calls::{Call, Engine};

#[link(name = "pewterslug", kind = "static")]
extern "C" {
    fn pewterslug_check(image: *const u8, image_length: usize) -> u64;
    fn pewterslug_check_start(state: *mut u8, state_length: usize) -> u64;
    fn pewterslug_check_piece(state: *mut u8, state_length: usize, piece: *const u8, piece_length: usize) -> u64;
    fn pewterslug_check_answer(state: *const u8, state_length: usize) -> u64;
    fn pewterslug_find_stuck(image: *const u8, image_length: usize, buffer: *mut u8, buffer_length: usize) -> u64;
    fn pewterslug_count_words(image: *const u8, image_length: usize, length: u64, buffer: *mut u8, buffer_length: usize) -> u64;
    fn pewterslug_print_plan(image: *const u8, image_length: usize, buffer: *mut u8, buffer_length: usize) -> u64;
    fn pewterslug_read_record(image: *const u8, image_length: usize, offset: usize) -> u64;
    fn pewterslug_write_record(
        kind: u8,
        first: u8,
        second: u8,
        third: u8,
        fourth: u8,
        word: u64,
        buffer: *mut u8,
        buffer_length: usize,
    ) -> u64;
    fn pewterslug_device_start(image: *const u8, image_length: usize, buffer: *mut u8, buffer_length: usize) -> u64;
    fn pewterslug_device_turn(image: *const u8, image_length: usize, state: *mut u8, state_length: usize, module: u8) -> u64;
    fn pewterslug_device_respond(image: *const u8, image_length: usize, state: *mut u8, state_length: usize, module: u8, event: u8) -> u64;
    fn pewterslug_device_tick(
        image: *const u8,
        image_length: usize,
        state: *mut u8,
        state_length: usize,
        module: u8,
        sensor: u8,
        litres: f64,
    ) -> u64;
    fn pewterslug_module_start(image: *const u8, image_length: usize, module: u8, buffer: *mut u8, buffer_length: usize) -> u64;
    fn pewterslug_module_step(
        image: *const u8,
        image_length: usize,
        state: *mut u8,
        state_length: usize,
        module: u8,
        buffer: *mut u8,
        buffer_length: usize,
    ) -> u64;
    fn pewterslug_module_deliver(
        image: *const u8,
        image_length: usize,
        state: *mut u8,
        state_length: usize,
        module: u8,
        message: *const u8,
        message_length: usize,
    ) -> u64;
    fn pewterslug_module_respond(image: *const u8, image_length: usize, state: *mut u8, state_length: usize, module: u8, event: u8) -> u64;
    fn pewterslug_module_tick(
        image: *const u8,
        image_length: usize,
        state: *mut u8,
        state_length: usize,
        module: u8,
        sensor: u8,
        litres: f64,
    ) -> u64;
    fn pewterslug_supervisor_start(image: *const u8, image_length: usize, supervisor: u8, buffer: *mut u8, buffer_length: usize) -> u64;
    fn pewterslug_supervisor_step(
        image: *const u8,
        image_length: usize,
        state: *mut u8,
        state_length: usize,
        supervisor: u8,
        buffer: *mut u8,
        buffer_length: usize,
    ) -> u64;
    fn pewterslug_supervisor_deliver(
        image: *const u8,
        image_length: usize,
        state: *mut u8,
        state_length: usize,
        supervisor: u8,
        message: *const u8,
        message_length: usize,
    ) -> u64;
    fn pewterslug_read_message(message: *const u8, message_length: usize) -> u64;
    fn pewterslug_write_message(kind: u8, first: u8, second: u8, event: u8, mask: u64, buffer: *mut u8, buffer_length: usize) -> u64;
}

/// The proved engine.
#[derive(Clone, Copy, Debug)]
pub struct Foreign;

impl Engine for Foreign {
    fn call(&self, call: Call, image: &[u8], state: &mut [u8], message: &[u8], buffer: &mut [u8]) -> u64 {
        let (i, il) = (image.as_ptr(), image.len());
        let (s, sl) = (state.as_mut_ptr(), state.len());
        let (m, ml) = (message.as_ptr(), message.len());
        let (b, bl) = (buffer.as_mut_ptr(), buffer.len());
        // SAFETY: each pointer with its length is a live slice for the whole call, never null; the two that may be written are lent
        // exclusively and overlap nothing; the engine keeps none of them.
        unsafe {
            match call {
                Call::Check => pewterslug_check(i, il),
                Call::CheckStart => pewterslug_check_start(b, bl),
                Call::CheckPiece => pewterslug_check_piece(s, sl, i, il),
                Call::CheckAnswer => pewterslug_check_answer(s, sl),
                Call::FindStuck => pewterslug_find_stuck(i, il, b, bl),
                Call::CountWords { length } => pewterslug_count_words(i, il, length, b, bl),
                Call::PrintPlan => pewterslug_print_plan(i, il, b, bl),
                Call::ReadRecord { offset } => pewterslug_read_record(i, il, offset),
                Call::WriteRecord {
                    kind,
                    fields: [first, second, third, fourth],
                    word,
                } => pewterslug_write_record(kind, first, second, third, fourth, word, b, bl),
                Call::DeviceStart => pewterslug_device_start(i, il, b, bl),
                Call::DeviceTurn { module } => pewterslug_device_turn(i, il, s, sl, module),
                Call::DeviceRespond { module, event } => pewterslug_device_respond(i, il, s, sl, module, event),
                Call::DeviceTick { module, sensor, litres } => pewterslug_device_tick(i, il, s, sl, module, sensor, litres),
                Call::ModuleStart { module } => pewterslug_module_start(i, il, module, b, bl),
                Call::ModuleStep { module } => pewterslug_module_step(i, il, s, sl, module, b, bl),
                Call::ModuleDeliver { module } => pewterslug_module_deliver(i, il, s, sl, module, m, ml),
                Call::ModuleRespond { module, event } => pewterslug_module_respond(i, il, s, sl, module, event),
                Call::ModuleTick { module, sensor, litres } => pewterslug_module_tick(i, il, s, sl, module, sensor, litres),
                Call::SupervisorStart { supervisor } => pewterslug_supervisor_start(i, il, supervisor, b, bl),
                Call::SupervisorStep { supervisor } => pewterslug_supervisor_step(i, il, s, sl, supervisor, b, bl),
                Call::SupervisorDeliver { supervisor } => pewterslug_supervisor_deliver(i, il, s, sl, supervisor, m, ml),
                Call::ReadMessage => pewterslug_read_message(m, ml),
                Call::WriteMessage {
                    kind,
                    first,
                    second,
                    event,
                    mask,
                } => pewterslug_write_message(kind, first, second, event, mask, b, bl),
            }
        }
    }
}
