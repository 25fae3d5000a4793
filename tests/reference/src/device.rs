//! The one-device controller: every module and supervisor in one state.

use crate::answer::{refusal, Answer, Result, DONE};
use crate::plan::{self, Plan};
use crate::procedure::Reading;
use crate::state::{device_fits, own_slot, supervisor_slots, Own, DEVICE_BYTES};
use crate::turn::{self, Turn};

/// The starting state, written into a buffer at least as long as it.
pub fn start(image: &[u8], buffer: &mut [u8]) -> Result<Answer> {
    let plan = plan::check(image)?;
    let state = buffer.get_mut(..DEVICE_BYTES).ok_or(refusal(15))?;
    state.fill(0);
    for module in 0..plan.modules {
        Own::start(&plan, module).write(own_slot(state, module));
    }
    supervisor_slots(state).copy_from_slice(&plan.supervisor_initial);
    Ok(Answer::new(DONE, 0, DEVICE_BYTES))
}

/// Judges image, whole state and module number, in this order.
fn open<'a>(image: &'a [u8], state: &mut [u8], module: u8) -> Result<(Plan<'a>, Own)> {
    let plan = plan::check(image)?;
    if !device_fits(&plan, state) {
        return Err(refusal(9));
    }
    if !plan.has_module(module) {
        return Err(refusal(11));
    }
    let own = Own::read(&plan, module, own_slot(state, module)).ok_or(refusal(9))?;
    Ok((plan, own))
}

pub fn turn(image: &[u8], state: &mut [u8], module: u8) -> Result<Answer> {
    let (plan, mut own) = open(image, state, module)?;
    let supervisors = &mut supervisor_slots(state)[..usize::from(plan.supervisors)];
    let mut disabled = 0;
    for (&present, supervisor) in supervisors.iter().zip(0..) {
        disabled |= plan.shown(supervisor, present);
    }
    let turn = turn::take(&plan, module, &mut own, disabled);
    if let Turn::Event(event) = turn {
        for (present, supervisor) in supervisors.iter_mut().zip(0..) {
            *present = plan.supervisor_after(supervisor, *present, event);
        }
    }
    own.write(own_slot(state, module));
    Ok(turn.answer(0))
}

pub fn respond(image: &[u8], state: &mut [u8], module: u8, event: u8) -> Result<Answer> {
    let (plan, mut own) = open(image, state, module)?;
    let answer = turn::respond(&plan, module, &mut own, event)?;
    own.write(own_slot(state, module));
    Ok(answer)
}

pub fn tick(image: &[u8], state: &mut [u8], module: u8, reading: Reading) -> Result<Answer> {
    let (plan, mut own) = open(image, state, module)?;
    let answer = turn::tick(&plan, &mut own, reading)?;
    own.write(own_slot(state, module));
    Ok(answer)
}
