//! A module on its own device.

use crate::answer::{self, refusal, Answer, Result, DONE};
use crate::message::{Message, NO_EVENT, RELEASE_BYTES};
use crate::plan::{self, contains, Plan};
use crate::procedure::Reading;
use crate::state::{Module, MODULE_BYTES};
use crate::turn::{self, Turn};

/// The starting state, written into a buffer at least as long as it.
pub fn start(image: &[u8], module: u8, buffer: &mut [u8]) -> Result<Answer> {
    let plan = plan::check(image)?;
    if !plan.has_module(module) {
        return Err(refusal(11));
    }
    let state = buffer.get_mut(..MODULE_BYTES).ok_or(refusal(15))?;
    Module::start(&plan, module).write(state);
    Ok(Answer::new(DONE, 0, MODULE_BYTES))
}

/// A module that the plan lacks has no state to judge: 11.
fn open<'a>(image: &'a [u8], state: &[u8], module: u8) -> Result<(Plan<'a>, Module)> {
    let plan = plan::check(image)?;
    if !plan.has_module(module) {
        return Err(refusal(11));
    }
    let party = Module::read(&plan, module, state).ok_or(refusal(9))?;
    Ok((plan, party))
}

/// A step: a turn with every neighbour's permit held, else a bid, else it waits.
pub fn step(image: &[u8], state: &mut [u8], module: u8, buffer: &mut [u8]) -> Result<Answer> {
    let (plan, mut party) = open(image, state, module)?;
    let neighbours = plan.neighbours(module);
    let missing = neighbours & !party.held;
    let wishes = || turn::wishes(&plan, module, &party.own);
    let answer = if missing == 0 && (neighbours != 0 || wishes()) {
        take_turn(&plan, module, neighbours, &mut party, buffer)?
    } else if missing != 0 && !party.bid && (party.held != 0 || wishes()) {
        let supervisor = missing.trailing_zeros() as u8;
        let length = Message::Bid { module, supervisor }.write(buffer)?;
        party.bid = true;
        Answer::new(answer::BIDS, supervisor, length)
    } else {
        return Ok(Answer::new(answer::WAITS, 0, 0));
    };
    party.write(state);
    Ok(answer)
}

/// A turn over the union of the masks received; releases all in ascending order and holds none. A release carries the event that
/// fired if that supervisor's alphabet has it, else FF.
fn take_turn(plan: &Plan, module: u8, neighbours: u32, party: &mut Module, buffer: &mut [u8]) -> Result<Answer> {
    let length = RELEASE_BYTES * neighbours.count_ones() as usize;
    let releases = buffer.get_mut(..length).ok_or(refusal(15))?;
    let turn = turn::take(plan, module, &mut party.own, party.received);
    let mut rest = neighbours;
    for release in releases.chunks_exact_mut(RELEASE_BYTES) {
        let supervisor = rest.trailing_zeros() as u8;
        rest &= rest - 1;
        let event = match turn {
            Turn::Event(event) if contains(plan.alphabet[supervisor as usize], event) => event,
            _ => NO_EVENT,
        };
        Message::Release { module, supervisor, event }.write(release)?;
    }
    party.held = 0;
    party.received = 0;
    Ok(turn.answer(length))
}

/// Takes a permit, only from the supervisor that it has a bid with, and its mask as it is.
pub fn deliver(image: &[u8], state: &mut [u8], module: u8, message: &[u8]) -> Result<Answer> {
    let plan = plan::check(image)?;
    let party = Module::read_if(&plan, module, state)?;
    let message = Message::read(message)?;
    let mut party = party.ok_or(refusal(11))?;
    message.judge_names(&plan)?;
    let missing = plan.neighbours(module) & !party.held;
    match message {
        Message::Permit {
            supervisor,
            module: named,
            mask,
        } if named == module && party.bid && missing.trailing_zeros() == u32::from(supervisor) => {
            party.held |= 1 << supervisor;
            party.received |= mask;
            party.bid = false;
        }
        _ => return Err(refusal(12)),
    }
    party.write(state);
    Ok(Answer::done())
}

impl Module {
    /// The state of a module that the plan has, or 9; none of one that it lacks.
    fn read_if(plan: &Plan, module: u8, state: &[u8]) -> Result<Option<Module>> {
        if !plan.has_module(module) {
            return Ok(None);
        }
        Module::read(plan, module, state).map(Some).ok_or(refusal(9))
    }
}

pub fn respond(image: &[u8], state: &mut [u8], module: u8, event: u8) -> Result<Answer> {
    let (plan, mut party) = open(image, state, module)?;
    let answer = turn::respond(&plan, module, &mut party.own, event)?;
    party.write(state);
    Ok(answer)
}

pub fn tick(image: &[u8], state: &mut [u8], module: u8, reading: Reading) -> Result<Answer> {
    let (plan, mut party) = open(image, state, module)?;
    let answer = turn::tick(&plan, &mut party.own, reading)?;
    party.write(state);
    Ok(answer)
}
