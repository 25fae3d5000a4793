//! The turn of a module, the same on one device and on many.

use crate::answer::{self, refusal, Answer, Result};
use crate::plan::{contains, Plan};
use crate::procedure::{self, Reading};
use crate::state::Own;

/// What a turn came to.
#[derive(Clone, Copy, Debug, PartialEq, Eq)]
pub enum Turn {
    Event(u8),
    None,
}

impl Turn {
    pub fn answer(self, length: usize) -> Answer {
        match self {
            Turn::Event(event) => Answer::new(answer::EVENT, event, length),
            Turn::None => Answer::new(answer::NONE, 0, length),
        }
    }
}

/// Takes a module's turn under the union of the masks shown to it. The supervisors move by the event that it answers.
pub fn take(plan: &Plan, module: u8, own: &mut Own, disabled: u64) -> Turn {
    // 1. The first queued response by which the module has a move fires; the others remain in their order.
    let mut responses = own.waiting().iter().enumerate();
    let usable = responses.find_map(|(index, &event)| Some((index, plan.module_move(module, own.state, event)?)));
    if let Some((index, to)) = usable {
        own.state = to;
        return Turn::Event(own.take_at(index));
    }
    // 2. With an idle procedure the lowest-numbered controllable event fires that has a move here and stands in no shown mask.
    if !own.procedure.running {
        let enabled = plan.events_from(module, own.state) & plan.controllable & !disabled;
        let event = enabled.trailing_zeros() as u8;
        if contains(enabled, event) {
            if let Some(to) = plan.module_move(module, own.state, event) {
                own.state = to;
                own.procedure = procedure::arrive(plan, event, 0);
                return Turn::Event(event);
            }
        }
    }
    // 3. Otherwise none.
    Turn::None
}

/// A wish is a queued response by which the module has a move, or an idle procedure where the present state has a controllable move.
pub fn wishes(plan: &Plan, module: u8, own: &Own) -> bool {
    let moves = plan.events_from(module, own.state);
    own.waiting().iter().any(|&event| contains(moves, event)) || (!own.procedure.running && moves & plan.controllable != 0)
}

/// Queues a response: 11 if it is not an uncontrollable event of the module, 13 if the queue is full.
pub fn respond(plan: &Plan, module: u8, own: &mut Own, event: u8) -> Result<Answer> {
    if !plan.is_response(module, event) {
        return Err(refusal(11));
    }
    if own.queue_full() {
        return Err(refusal(13));
    }
    own.push(event);
    Ok(Answer::done())
}

/// A tick with its reading, which is judged even when idle: 14.
pub fn tick(plan: &Plan, own: &mut Own, reading: Reading) -> Result<Answer> {
    if !reading.is_good() {
        return Err(refusal(14));
    }
    procedure::tick(plan, own, reading);
    Ok(Answer::done())
}
