//! A supervisor on its own device.

use crate::answer::{self, refusal, Answer, Result, DONE};
use crate::message::{Message, NO_EVENT};
use crate::plan;
use crate::state::{Supervisor, SUPERVISOR_BYTES};

/// The starting state, written into a buffer at least as long as it.
pub fn start(image: &[u8], supervisor: u8, buffer: &mut [u8]) -> Result<Answer> {
    let plan = plan::check(image)?;
    if !plan.has_supervisor(supervisor) {
        return Err(refusal(11));
    }
    let state = buffer.get_mut(..SUPERVISOR_BYTES).ok_or(refusal(15))?;
    Supervisor::start(&plan, supervisor).write(state);
    Ok(Answer::new(DONE, 0, SUPERVISOR_BYTES))
}

/// A step with the permit home sends it, with the shown mask, to the first noted module cyclically after the last served.
pub fn step(image: &[u8], state: &mut [u8], supervisor: u8, buffer: &mut [u8]) -> Result<Answer> {
    let plan = plan::check(image)?;
    if !plan.has_supervisor(supervisor) {
        return Err(refusal(11));
    }
    let mut party = Supervisor::read(&plan, supervisor, state).ok_or(refusal(9))?;
    if party.noted == 0 || party.holder.is_some() {
        return Ok(Answer::new(answer::WAITS, 0, 0));
    }
    let module = next_served(party.noted, party.last_served);
    let mask = plan.shown(supervisor, party.state);
    let permit = Message::Permit { supervisor, module, mask };
    let length = permit.write(buffer)?;
    party.noted &= !(1 << module);
    party.holder = Some(module);
    party.last_served = module;
    party.write(state);
    Ok(Answer::new(answer::SENDS, module, length))
}

/// The first of some noted modules, cyclically after the last served: from the next one up, then from 0.
fn next_served(noted: u16, last_served: u8) -> u8 {
    let later = u32::from(noted) & (!1 << last_served);
    if later != 0 {
        later.trailing_zeros() as u8
    } else {
        noted.trailing_zeros() as u8
    }
}

/// Notes a bid, or takes the holder's release: applies its event and brings the permit home.
pub fn deliver(image: &[u8], state: &mut [u8], supervisor: u8, message: &[u8]) -> Result<Answer> {
    let plan = plan::check(image)?;
    // A supervisor that the plan lacks has no state to judge: 10 if the message is misshapen, else 11.
    if !plan.has_supervisor(supervisor) {
        return Err(Message::read(message).err().unwrap_or(refusal(11)));
    }
    let mut party = Supervisor::read(&plan, supervisor, state).ok_or(refusal(9))?;
    let message = Message::read(message)?;
    message.judge_names(&plan)?;
    match message {
        Message::Bid { module, supervisor: named } if named == supervisor && party.noted >> module & 1 == 0 => party.noted |= 1 << module,
        Message::Release {
            module,
            supervisor: named,
            event,
        } if named == supervisor && party.holder == Some(module) => {
            if event != NO_EVENT {
                party.state = plan.supervisor_after(supervisor, party.state, event);
            }
            party.holder = None;
        }
        _ => return Err(refusal(12)),
    }
    party.write(state);
    Ok(Answer::done())
}
