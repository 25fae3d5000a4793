//! Whole distributed schedules, with the one-device controller fed the same turns, responses and ticks beside them: demand 3.

use super::inputs::reading;
use super::Rng;
use crate::answer::{did, length, number, value, EVENT, NONE};
use crate::calls::{Call, Engine, Reference};
use crate::message::{Message, BID, BID_BYTES, PERMIT, PERMIT_BYTES, RELEASE_BYTES};
use crate::plan::{self, Plan};
use crate::state::{DEVICE_BYTES, MODULE_BYTES, MODULE_SLOTS, OWN_BYTES, SUPERVISOR_BYTES};

/// One call of a schedule. A delivery names a place among the messages under way, counted round.
#[derive(Clone, Copy, Debug)]
pub enum Op {
    ModuleStep(u8),
    SupervisorStep(u8),
    Deliver(usize),
    Respond(u8, u8),
    Tick(u8, u8, f64),
}

/// A call for any party, now and then one that the plan lacks.
pub fn random_op(rng: &mut Rng, plan: &Plan) -> Op {
    let lacking = usize::from(rng.chance(2));
    let module = rng.below(usize::from(plan.modules) + lacking) as u8;
    let supervisor = rng.below(usize::from(plan.supervisors) + lacking) as u8;
    match rng.below(20) {
        0..=5 => Op::ModuleStep(module),
        6..=9 => Op::SupervisorStep(supervisor),
        10..=15 => Op::Deliver(rng.below(48)),
        16 => {
            let own = plan.module_events.get(usize::from(module)).copied().unwrap_or(0);
            let event = rng.bit(own & !plan.controllable).unwrap_or(0);
            Op::Respond(module, if rng.chance(90) { event } else { rng.below(66) as u8 })
        }
        _ => {
            let (sensor, litres) = reading(rng);
            Op::Tick(module, sensor, litres)
        }
    }
}

/// A schedule of so many calls. Two thirds are calls that have something to do, found by running the reference along; now and then
/// one party is woken many times over.
pub fn schedule(rng: &mut Rng, image: &[u8], calls: usize) -> Vec<Op> {
    let mut world = World::new(Reference, image);
    let mut ops = Vec::new();
    while ops.len() < calls {
        let op = if rng.chance(65) {
            world.lively_op(rng)
        } else {
            random_op(rng, &world.plan)
        };
        for _ in 0..if rng.chance(3) { rng.between(2, 12) } else { 1 } {
            ops.push(op);
            world.apply(op);
        }
    }
    ops
}

/// What a call of a schedule came to.
#[derive(Clone, Debug, Default, PartialEq, Eq)]
pub struct Applied {
    pub answer: Option<u64>,
    /// What the one-device controller answered, where it was fed.
    pub device: Option<u64>,
    /// What broke demand 3 or the rules of lent memory.
    pub fault: Option<String>,
}

/// All parties, the messages under way, and the one-device controller beside them.
#[derive(Clone)]
pub struct World<'a, E> {
    engine: E,
    image: &'a [u8],
    plan: Plan<'a>,
    pub modules: Vec<Vec<u8>>,
    pub supervisors: Vec<Vec<u8>>,
    pub device: Vec<u8>,
    pub wire: Vec<Vec<u8>>,
    /// The events fired, in order.
    pub record: Vec<u8>,
}

const GUARD: usize = 16;
const GUARD_BYTE: u8 = 0x5A;

impl<'a, E: Engine + Copy> World<'a, E> {
    /// All at their starting states.
    ///
    /// # Panics
    /// If the image is not accepted.
    pub fn new(engine: E, image: &'a [u8]) -> Self {
        let plan = plan::check(image).expect("a valid plan");
        let start = |call: Call, bytes: usize| {
            let mut state = vec![0; bytes];
            engine.call(call, image, &mut [], &[], &mut state);
            state
        };
        World {
            modules: (0..plan.modules)
                .map(|module| start(Call::ModuleStart { module }, MODULE_BYTES))
                .collect(),
            supervisors: (0..plan.supervisors)
                .map(|supervisor| start(Call::SupervisorStart { supervisor }, SUPERVISOR_BYTES))
                .collect(),
            device: start(Call::DeviceStart, DEVICE_BYTES),
            wire: Vec::new(),
            record: Vec::new(),
            engine,
            image,
            plan,
        }
    }

    /// A call that has something to do: a message to take, a permit to send, a module that wishes, a procedure to go on with, a
    /// response that the module has a move by, now and then one that it may have none by yet.
    pub fn lively_op(&self, rng: &mut Rng) -> Op {
        let mut ops: Vec<Op> = (0..self.wire.len()).map(Op::Deliver).collect();
        for (state, supervisor) in self.supervisors.iter().zip(0..) {
            if state[3] == 0 && (state[1], state[2]) != (0, 0) {
                ops.push(Op::SupervisorStep(supervisor));
            }
        }
        for (state, module) in self.modules.iter().zip(0..) {
            let moves = self.plan.events_from(module, state[0]);
            let (held, running) = (state[35..39] != [0; 4], state[10] == 1);
            let waiting = &state[2..2 + usize::from(state[1])];
            let usable = waiting.iter().any(|&event| plan::contains(moves, event));
            if state[47] == 0 && (held || usable || (!running && moves & self.plan.controllable != 0)) {
                ops.push(Op::ModuleStep(module));
            }
            if running {
                ops.push(Op::Tick(module, 1, rng.below(81) as f64 / 8.0));
            }
            // Few wait at a time, so that a module is seldom full of responses without a move.
            let early = rng.chance(50) && waiting.len() < 4;
            let events = if early {
                self.plan.module_events[usize::from(module)]
            } else {
                moves
            };
            match rng.bit(events & !self.plan.controllable) {
                Some(event) if rng.chance(30) => ops.push(Op::Respond(module, event)),
                _ => {}
            }
        }
        if ops.is_empty() {
            random_op(rng, &self.plan)
        } else {
            rng.pick(&ops)
        }
    }

    pub fn apply(&mut self, op: Op) -> Applied {
        match op {
            Op::ModuleStep(module) => self.module_step(module),
            Op::SupervisorStep(supervisor) => self.call(Call::SupervisorStep { supervisor }, Party::Supervisor(supervisor), &[]),
            Op::Deliver(_) if self.wire.is_empty() => Applied::default(),
            Op::Deliver(place) => {
                let message = self.wire.remove(place % self.wire.len());
                let (call, party) = addressee(&message);
                self.call(call, party, &message)
            }
            Op::Respond(module, event) => {
                let applied = self.call(Call::ModuleRespond { module, event }, Party::Module(module), &[]);
                self.beside(applied, module, Call::DeviceRespond { module, event })
            }
            Op::Tick(module, sensor, litres) => {
                let call = Call::ModuleTick { module, sensor, litres };
                let applied = self.call(call, Party::Module(module), &[]);
                self.beside(applied, module, Call::DeviceTick { module, sensor, litres })
            }
        }
    }

    fn module_step(&mut self, module: u8) -> Applied {
        let applied = self.call(Call::ModuleStep { module }, Party::Module(module), &[]);
        let answer = applied.answer.unwrap_or(1);
        if number(answer) != 0 || !matches!(did(answer), EVENT | NONE) {
            return applied;
        }
        if did(answer) == EVENT {
            if let Some(fault) = self.judge_event(module, value(answer)) {
                return Applied {
                    fault: Some(fault),
                    ..applied
                };
            }
            self.record.push(value(answer));
        }
        self.beside(applied, module, Call::DeviceTurn { module })
    }

    /// An event of the record is a listed move, and if controllable no supervisor led along the record disables it. The one-device
    /// state is where the record so far leads.
    fn judge_event(&self, module: u8, event: u8) -> Option<String> {
        let state = self.device[usize::from(module) * OWN_BYTES];
        let disabled = (0..self.plan.supervisors).any(|supervisor| {
            let present = self.device[MODULE_SLOTS * OWN_BYTES + usize::from(supervisor)];
            plan::contains(self.plan.shown(supervisor, present), event)
        });
        if self.plan.module_move(module, state, event).is_none() {
            Some(format!("event {event} fired without a listed move"))
        } else if disabled {
            Some(format!("event {event} fired while a supervisor disables it"))
        } else {
            None
        }
    }

    /// One call with a buffer of 128 bytes; what an accepted step writes is under way from then on.
    fn call(&mut self, call: Call, party: Party, message: &[u8]) -> Applied {
        let mut none = Vec::new();
        let state = match party {
            Party::Module(module) => self.modules.get_mut(usize::from(module)).unwrap_or(&mut none),
            Party::Supervisor(supervisor) => self.supervisors.get_mut(usize::from(supervisor)).unwrap_or(&mut none),
        };
        let before = state.clone();
        let mut buffer = [GUARD_BYTE; 128 + GUARD];
        let answer = self.engine.call(call, self.image, state, message, &mut buffer[..128]);
        let written = (length(answer) as usize).min(128);
        let mut fault = None;
        if buffer[written..].iter().any(|&byte| byte != GUARD_BYTE) {
            fault = Some("the buffer was written past the answer".to_string());
        }
        if number(answer) != 0 && *state != before {
            fault = Some("a refused call changed the state".to_string());
        }
        let mut rest = &buffer[..written];
        while !rest.is_empty() {
            let size = match rest[0] {
                BID => BID_BYTES,
                PERMIT => PERMIT_BYTES,
                _ => RELEASE_BYTES,
            };
            let size = size.min(rest.len());
            self.wire.push(rest[..size].to_vec());
            rest = &rest[size..];
        }
        Applied {
            answer: Some(answer),
            device: None,
            fault,
        }
    }

    /// Feeds the one-device controller and compares its answer, and the module's own part after it.
    fn beside(&mut self, mut applied: Applied, module: u8, call: Call) -> Applied {
        if !self.plan.has_module(module) {
            return applied;
        }
        let device = self.engine.call(call, self.image, &mut self.device, &[], &mut []);
        applied.device = Some(device);
        // Equal but for the bytes written: one device sends no releases.
        let brief = |answer: u64| (number(answer), did(answer), value(answer));
        let at = usize::from(module) * OWN_BYTES;
        if applied.answer.map(brief) != Some(brief(device)) {
            applied.fault = Some(format!("one device answers {device:#x}"));
        } else if self.device[at..at + OWN_BYTES] != self.modules[usize::from(module)][..OWN_BYTES] {
            applied.fault = Some("one device has another own part".to_string());
        }
        applied
    }

    /// The rest of demand 3, due at a list's end: supervisors with their permit at home stand where the record leads, and if any
    /// permit is out something can still go on.
    pub fn finish(&self) -> Option<String> {
        let mut out = false;
        for (number, state) in self.supervisors.iter().enumerate() {
            out |= state[3] == 1;
            if state[3] == 0 && state[0] != self.device[MODULE_SLOTS * OWN_BYTES + number] {
                return Some(format!("supervisor {number} does not stand where the record leads"));
            }
        }
        if out && !self.goes_on() {
            return Some("a permit is out and nothing can go on".to_string());
        }
        None
    }

    fn goes_on(&self) -> bool {
        let accepted = (0..self.wire.len()).any(|place| {
            let answer = self.clone().apply(Op::Deliver(place)).answer;
            answer.is_some_and(|answer| number(answer) == 0)
        });
        let steps = (0..self.plan.modules)
            .map(Op::ModuleStep)
            .chain((0..self.plan.supervisors).map(Op::SupervisorStep));
        accepted
            || steps.into_iter().any(|op| {
                let mut next = self.clone();
                next.apply(op);
                next.modules != self.modules || next.supervisors != self.supervisors
            })
    }
}

/// The party whose state a call gets.
#[derive(Clone, Copy)]
enum Party {
    Module(u8),
    Supervisor(u8),
}

/// The party that a message names and that takes its kind. A misshapen one goes to module 0, which must refuse it.
fn addressee(message: &[u8]) -> (Call, Party) {
    match Message::read(message) {
        Ok(Message::Bid { supervisor, .. } | Message::Release { supervisor, .. }) => {
            (Call::SupervisorDeliver { supervisor }, Party::Supervisor(supervisor))
        }
        Ok(Message::Permit { module, .. }) => (Call::ModuleDeliver { module }, Party::Module(module)),
        Err(_) => (Call::ModuleDeliver { module: 0 }, Party::Module(0)),
    }
}
