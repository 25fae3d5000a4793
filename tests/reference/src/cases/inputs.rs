//! Single calls with everything that is lent to them.

use super::damage::damaged;
use super::plans::Records;
use super::schedule::{random_op, World};
use super::states::{
    break_device, break_module, break_supervisor, fit_device, fit_module, fit_supervisor, DEVICE_CLAUSES, MODULE_CLAUSES,
    SUPERVISOR_CLAUSES,
};
use super::Rng;
use crate::calls::{Call, Reference};
use crate::message::{BID, NO_EVENT, PERMIT, RELEASE};
use crate::plan::{self, Plan};
use crate::state::{DEVICE_BYTES, MODULE_BYTES, SUPERVISOR_BYTES};

/// One call and the contents of the slices lent to it.
#[derive(Clone, Debug)]
pub struct Case {
    pub call: Call,
    pub image: Vec<u8>,
    pub state: Vec<u8>,
    pub message: Vec<u8>,
    pub buffer: Vec<u8>,
}

/// A valid plan that cases are drawn on, and a run over it that states are taken from.
pub struct Ground<'a> {
    pub records: &'a Records,
    pub image: &'a [u8],
    pub plan: Plan<'a>,
    pub world: World<'a, Reference>,
}

impl<'a> Ground<'a> {
    /// # Panics
    /// If the image of the records is not accepted.
    pub fn new(records: &'a Records, image: &'a [u8]) -> Ground<'a> {
        let plan = plan::check(image).expect("a valid plan");
        let world = World::new(Reference, image);
        Ground {
            records,
            image,
            plan,
            world,
        }
    }

    /// Goes on with the run for a few random calls.
    fn run(&mut self, rng: &mut Rng) {
        for _ in 0..rng.below(12) {
            let op = if rng.chance(65) {
                self.world.lively_op(rng)
            } else {
                random_op(rng, &self.plan)
            };
            self.world.apply(op);
        }
    }

    /// The plan itself, sometimes damaged.
    fn some_image(&self, rng: &mut Rng) -> Vec<u8> {
        if rng.chance(4) {
            damaged(rng, self.records)
        } else {
            self.image.to_vec()
        }
    }
}

pub(super) fn case(call: Call) -> Case {
    Case {
        call,
        image: Vec::new(),
        state: Vec::new(),
        message: Vec::new(),
        buffer: Vec::new(),
    }
}

/// A buffer of any length from 0 to 140 with random content.
pub fn buffer(rng: &mut Rng) -> Vec<u8> {
    let length = match rng.below(4) {
        0 => rng.between(0, 13),
        1 => 128,
        _ => rng.between(0, 140),
    };
    rng.bytes(length)
}

/// A buffer for a starting state: about as long as that, with random content.
pub(super) fn start_buffer(rng: &mut Rng, length: usize) -> Vec<u8> {
    let length = match rng.below(4) {
        0 => rng.below(length),
        1 => length - 1,
        2 => length,
        _ => length + rng.below(20),
    };
    rng.bytes(length)
}

/// Whether a sensor is fitted, and litres of every class of floats.
pub fn reading(rng: &mut Rng) -> (u8, f64) {
    let sensor = rng.pick(&[0, 1, 1, 1, 1, 1, 2, 255]);
    let litres = match rng.below(10) {
        0..=4 => rng.between(0, 512) as f64 / 8.0,
        5 => rng.between(0, 40) as f64 / 8.0,
        6 => rng.pick(&[64.0, 64.125, 0.0, -0.0, 0.125, -0.125, 0.1, 63.875, 1e300, -1e300, 65_536.0]),
        7 => rng.pick(&[
            f64::NAN,
            -f64::NAN,
            f64::INFINITY,
            f64::NEG_INFINITY,
            f64::MIN_POSITIVE,
            5e-324,
            -5e-324,
        ]),
        8 => f64::from_bits(rng.pick(&[
            0x7FF0_0000_0000_0001,
            0xFFF0_0000_0000_0001,
            0x7FFF_FFFF_FFFF_FFFF,
            0x000F_FFFF_FFFF_FFFF,
        ])),
        _ => match rng.below(3) {
            0 => f64::from_bits(rng.word()),
            1 => rng.below(64_000) as f64 / 1000.0,
            _ => f64::from_bits((rng.below(512) as f64 / 8.0).to_bits() ^ 1 << rng.below(64)),
        },
    };
    (sensor, litres)
}

/// A message of each kind with right and wrong parties, or a misshapen one. The parties given are the likely ones.
pub fn message(rng: &mut Rng, plan: &Plan, module: u8, supervisor: u8) -> Vec<u8> {
    let module = if rng.chance(85) {
        module
    } else {
        rng.pick(&[0, 1, 2, 15, 16, 255])
    };
    let supervisor = if rng.chance(85) {
        supervisor
    } else {
        rng.pick(&[0, 1, 2, 31, 32, 255])
    };
    let mut message = match rng.pick(&[BID, PERMIT, RELEASE]) {
        BID => vec![BID, module, supervisor],
        PERMIT => [&[PERMIT, supervisor, module], &rng.word().to_be_bytes()[..]].concat(),
        _ => vec![RELEASE, module, supervisor, release_event(rng, plan, module, supervisor)],
    };
    match rng.below(20) {
        0 => message.truncate(rng.below(message.len())),
        1 => message.push(rng.byte()),
        2 => message[0] = rng.pick(&[0, 1, 2, 3, 4, 255]),
        3 => {
            let length = rng.below(14);
            message = rng.bytes(length);
        }
        _ => {}
    }
    message
}

fn release_event(rng: &mut Rng, plan: &Plan, module: u8, supervisor: u8) -> u8 {
    let own = plan.module_events.get(usize::from(module)).copied().unwrap_or(0);
    let alphabet = plan.alphabet.get(usize::from(supervisor)).copied().unwrap_or(0);
    match rng.below(10) {
        0..=4 => rng.bit(own & alphabet).unwrap_or(0),
        5 => rng.bit(own).unwrap_or(1),
        6 => rng.bit(alphabet).unwrap_or(2),
        7 => rng.pick(&[63, 64, 65, 128, 254]),
        _ => NO_EVENT,
    }
}

/// A number that is mostly below the count.
fn some_number(rng: &mut Rng, count: u8) -> u8 {
    if count > 0 && rng.chance(93) {
        rng.below(usize::from(count)) as u8
    } else {
        rng.pick(&[count, 9, 15, 16, 31, 32, 64, 255])
    }
}

/// An event, mostly a response of the module.
fn some_event(rng: &mut Rng, plan: &Plan, module: u8) -> u8 {
    let own = plan.module_events.get(usize::from(module)).copied().unwrap_or(0);
    match rng.bit(own & !plan.controllable) {
        Some(event) if rng.chance(85) => event,
        _ => rng.pick(&[rng.clone().below(64) as u8, 0, 1, 2, 3, 63, 64, 255]),
    }
}

/// Makes a state wrong now and then: a clause broken, random bytes, or another length.
fn spoil(rng: &mut Rng, state: &mut Vec<u8>, clauses: usize, break_clause: impl FnOnce(&mut Rng, &mut [u8], usize)) {
    match rng.below(40) {
        0..=5 => {
            let clause = rng.below(clauses);
            break_clause(rng, state, clause);
        }
        6 => *state = rng.bytes(state.len()),
        7 => {
            let at = rng.below(state.len());
            state[at] = rng.byte();
        }
        8 => {
            let length = rng.pick(&[0, 1, 6, 35, 47, 48, 49, state.len() - 1, state.len() + 1, 592, 600]);
            state.resize(length, 0);
        }
        _ => {}
    }
}

/// A check of an image, good or damaged.
pub fn image_case(rng: &mut Rng, ground: &Ground) -> Case {
    let image = if rng.chance(15) {
        ground.image.to_vec()
    } else {
        damaged(rng, ground.records)
    };
    Case {
        image,
        ..case(Call::Check)
    }
}

/// A record read or written.
pub fn record_case(rng: &mut Rng, ground: &Ground) -> Case {
    if rng.chance(50) {
        return write_record_case(rng);
    }
    let image = ground.some_image(rng);
    let record = rng.below(ground.records.len());
    let offset = match rng.below(4) {
        0 => rng.below(image.len() + 3),
        1 => rng.pick(&[0, image.len(), image.len() + 1, usize::MAX]),
        _ => ground.records[..record].iter().map(Vec::len).sum(),
    };
    Case {
        image,
        ..case(Call::ReadRecord { offset })
    }
}

fn write_record_case(rng: &mut Rng) -> Case {
    let limits = [0, 1, 2, 3, 4, 5, 6, 15, 16, 17, 31, 32, 33, 63, 64, 65, 255];
    let word = match rng.below(4) {
        0 => rng.below(40) as u64,
        1 => (rng.below(1_100_000) as f64 / 8.0).to_bits(),
        2 => rng.word(),
        _ => rng.pick(&[
            0,
            31,
            32,
            65_535,
            65_536,
            131_072f64.to_bits(),
            f64::NAN.to_bits(),
            0.0625f64.to_bits(),
        ]),
    };
    let kind = if rng.chance(92) {
        rng.pick(&[0x10, 0x11, 0x12, 0x13, 0x14, 0x15, 0x16, 0x17, 0x17, 0x17, 0x18, 0x1F])
    } else {
        rng.byte()
    };
    let small = rng.chance(60);
    let fields = [(); 4].map(|()| if small { rng.between(1, 5) as u8 } else { rng.pick(&limits) });
    let length = rng.pick(&[0, 1, 2, 3, 4, 5, 10, 11, 12, 12, 12, 13, 20]);
    Case {
        buffer: rng.bytes(length),
        ..case(Call::WriteRecord { kind, fields, word })
    }
}

/// A message read or written.
pub fn message_case(rng: &mut Rng, ground: &Ground) -> Case {
    let (module, supervisor) = (rng.byte(), rng.byte());
    if rng.chance(50) {
        return Case {
            message: message(rng, &ground.plan, module, supervisor),
            ..case(Call::ReadMessage)
        };
    }
    let call = Call::WriteMessage {
        kind: rng.pick(&[0, 1, 1, 2, 2, 3, 3, 4, 255]),
        first: module,
        second: supervisor,
        event: rng.byte(),
        mask: rng.word(),
    };
    let length = rng.below(14);
    Case {
        buffer: rng.bytes(length),
        ..case(call)
    }
}

/// A call on one device.
pub fn device_case(rng: &mut Rng, ground: &mut Ground) -> Case {
    let plan = ground.plan.clone();
    let image = ground.some_image(rng);
    let module = some_number(rng, plan.modules);
    let (sensor, litres) = reading(rng);
    let call = match rng.below(20) {
        0 => {
            let buffer = start_buffer(rng, DEVICE_BYTES);
            return Case {
                image,
                buffer,
                ..case(Call::DeviceStart)
            };
        }
        1..=8 => Call::DeviceTurn { module },
        9..=12 => Call::DeviceRespond {
            module,
            event: some_event(rng, &plan, module),
        },
        _ => Call::DeviceTick { module, sensor, litres },
    };
    let mut state = if rng.chance(50) {
        fit_device(rng, &plan)
    } else {
        ground.run(rng);
        ground.world.device.clone()
    };
    spoil(rng, &mut state, DEVICE_CLAUSES, |rng, state, clause| {
        break_device(rng, &plan, state, clause)
    });
    Case {
        image,
        state,
        ..case(call)
    }
}

/// A call on a module.
pub fn module_case(rng: &mut Rng, ground: &mut Ground) -> Case {
    let plan = ground.plan.clone();
    let image = ground.some_image(rng);
    let module = some_number(rng, plan.modules);
    if rng.chance(5) {
        let buffer = start_buffer(rng, MODULE_BYTES);
        return Case {
            image,
            buffer,
            ..case(Call::ModuleStart { module })
        };
    }
    let mut state = vec![0; MODULE_BYTES];
    if plan.has_module(module) {
        state = fit_module(rng, &plan, module);
        if rng.chance(50) {
            ground.run(rng);
            state = ground.world.modules[usize::from(module)].clone();
        }
        spoil(rng, &mut state, MODULE_CLAUSES, |rng, state, clause| {
            break_module(rng, &plan, module, state, clause)
        });
    }
    let (sensor, litres) = reading(rng);
    let call = match rng.below(20) {
        0..=8 => Call::ModuleStep { module },
        9..=13 => Call::ModuleDeliver { module },
        14..=16 => Call::ModuleRespond {
            module,
            event: some_event(rng, &plan, module),
        },
        _ => Call::ModuleTick { module, sensor, litres },
    };
    Case {
        call,
        image,
        message: module_message(rng, &plan, module, &state),
        state,
        buffer: buffer(rng),
    }
}

/// A message for a module, mostly the permit that it waits for.
fn module_message(rng: &mut Rng, plan: &Plan, module: u8, state: &[u8]) -> Vec<u8> {
    if !plan.has_module(module) || state.len() != MODULE_BYTES {
        return message(rng, plan, module, 0);
    }
    let held = u32::from_be_bytes([state[35], state[36], state[37], state[38]]);
    let neighbours = plan.neighbours(module);
    let due = (neighbours & !held).trailing_zeros() as u8;
    if rng.chance(50) {
        return [&[PERMIT, due, module], &rng.word().to_be_bytes()[..]].concat();
    }
    let supervisor = rng.bit(u64::from(neighbours)).unwrap_or(0);
    message(rng, plan, module, supervisor)
}

/// A call on a supervisor.
pub fn supervisor_case(rng: &mut Rng, ground: &mut Ground) -> Case {
    let plan = ground.plan.clone();
    let image = ground.some_image(rng);
    let supervisor = some_number(rng, plan.supervisors);
    if rng.chance(5) {
        let buffer = start_buffer(rng, SUPERVISOR_BYTES);
        return Case {
            image,
            buffer,
            ..case(Call::SupervisorStart { supervisor })
        };
    }
    let mut state = vec![0; SUPERVISOR_BYTES];
    let mut module = 0;
    if plan.has_supervisor(supervisor) {
        state = fit_supervisor(rng, &plan, supervisor);
        if rng.chance(50) {
            ground.run(rng);
            state = ground.world.supervisors[usize::from(supervisor)].clone();
        }
        // The holder is the likely sender of a release, another neighbour that of a bid.
        let neighbour = rng.bit(u64::from(plan.neighbour_modules(supervisor)));
        module = if state[3] == 1 && rng.chance(60) {
            state[4]
        } else {
            neighbour.unwrap_or(0)
        };
        spoil(rng, &mut state, SUPERVISOR_CLAUSES, |rng, state, clause| {
            break_supervisor(rng, &plan, supervisor, state, clause)
        });
    }
    let call = if rng.chance(40) {
        Call::SupervisorStep { supervisor }
    } else {
        Call::SupervisorDeliver { supervisor }
    };
    Case {
        call,
        image,
        state,
        message: message(rng, &plan, module, supervisor),
        buffer: buffer(rng),
    }
}

/// A call that only its state can spoil: one that fits, with one clause of fitting broken. Cases in a row take the clauses in turn.
pub fn unfit_case(rng: &mut Rng, ground: &Ground, turn: usize) -> Case {
    let (plan, image) = (&ground.plan, ground.image.to_vec());
    let module = rng.below(usize::from(plan.modules)) as u8;
    let supervisor = rng.below(usize::from(plan.supervisors)) as u8;
    let (sensor, litres) = (1, 0.125);
    let clause = turn / 3;
    let (call, state) = match turn % 3 {
        0 => {
            let mut state = fit_device(rng, plan);
            break_device(rng, plan, &mut state, clause % DEVICE_CLAUSES);
            (
                rng.pick(&[Call::DeviceTurn { module }, Call::DeviceTick { module, sensor, litres }]),
                state,
            )
        }
        1 if plan.supervisors > 0 => {
            let mut state = fit_supervisor(rng, plan, supervisor);
            break_supervisor(rng, plan, supervisor, &mut state, clause % SUPERVISOR_CLAUSES);
            (
                rng.pick(&[Call::SupervisorStep { supervisor }, Call::SupervisorDeliver { supervisor }]),
                state,
            )
        }
        _ => {
            let mut state = fit_module(rng, plan, module);
            break_module(rng, plan, module, &mut state, clause % MODULE_CLAUSES);
            let tick = Call::ModuleTick { module, sensor, litres };
            (
                rng.pick(&[Call::ModuleStep { module }, Call::ModuleDeliver { module }, tick]),
                state,
            )
        }
    };
    Case {
        call,
        image,
        state,
        message: vec![BID, module, supervisor],
        buffer: rng.bytes(128),
    }
}
