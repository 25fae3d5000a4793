//! States that fit a plan, and states that break one clause of fitting each.

use super::Rng;
use crate::plan::{self, contains, Plan, Step};
use crate::state::{
    own_slot, supervisor_slots, Module, Own, Procedure, Supervisor, DEVICE_BYTES, MODULE_BYTES, MODULE_SLOTS, OWN_BYTES, QUEUE_LIMIT,
    SUPERVISOR_BYTES, SUPERVISOR_SLOTS,
};

/// A random own part that fits.
fn fit_own(rng: &mut Rng, plan: &Plan, module: u8) -> Own {
    let mut own = Own {
        state: rng.below(usize::from(plan.module_states[module as usize])) as u8,
        procedure: fit_procedure(rng, plan, module),
        outputs: rng.word() as u32,
        ..Own::default()
    };
    let responses = plan.module_events[module as usize] & !plan.controllable;
    let moves = plan.events_from(module, own.state);
    let mut queued = rng.pick(&[0, 0, 0, 1, 1, 2, 4, 7, 8]);
    // So many at the head came early: the module has no move by them here. The one behind them, often the last, it has a move by.
    let some = rng.between(0, queued);
    let mut early = rng.pick(&[None, None, Some(some), Some(queued.max(1) - 1)]);
    if let Some(procedure) = at_respond(rng, plan, module).filter(|_| rng.chance(25)) {
        own.procedure = procedure;
        queued = QUEUE_LIMIT;
        early = Some(QUEUE_LIMIT);
    }
    for index in 0..queued {
        let wanted = match early {
            Some(early) if index < early => responses & !moves,
            Some(early) if index == early => responses & moves,
            _ => responses,
        };
        if let Some(event) = rng.bit(wanted).or_else(|| rng.bit(responses)) {
            own.push(event);
        }
    }
    own
}

/// A procedure at one of the module's respond steps, if it has any.
fn at_respond(rng: &mut Rng, plan: &Plan, module: u8) -> Option<Procedure> {
    let commands = plan.module_events[module as usize] & plan.controllable;
    let places: Vec<(u8, u8)> = (0..64)
        .filter(|&event| contains(commands, event))
        .flat_map(|event| (0..64).map(move |index| (event, index)))
        .filter(|&(event, index)| plan.step(event, index).is_some_and(|step| step.operation == plan::RESPOND))
        .collect();
    let (event, index) = *places.get(rng.below(places.len()))?;
    Some(Procedure {
        running: true,
        event,
        index,
        ..Procedure::default()
    })
}

fn fit_procedure(rng: &mut Rng, plan: &Plan, module: u8) -> Procedure {
    let commands = plan.module_events[module as usize] & plan.controllable;
    let at = rng.bit(commands).and_then(|event| {
        let steps = (0..64).take_while(|&index| plan.step(event, index).is_some()).count();
        let index = rng.below(steps) as u8;
        plan.step(event, index).map(|step| (event, index, step))
    });
    match at {
        Some((event, index, step)) if rng.chance(65) => at_step(rng, event, index, step),
        _ => Procedure::default(),
    }
}

/// A procedure somewhere within a step.
fn at_step(rng: &mut Rng, event: u8, index: u8, step: Step) -> Procedure {
    let mut procedure = Procedure {
        running: true,
        event,
        index,
        ..Procedure::default()
    };
    match step.operation {
        plan::WAIT_TICKS => {
            let last = step.operand as usize - 1;
            procedure.count = if rng.chance(50) { last } else { rng.between(0, last) } as u16;
        }
        plan::WAIT_LITRES => {
            let target = f64::from_bits(step.operand);
            let last = (target * 8.0) as usize - 1;
            let eighths = if rng.chance(50) {
                last - rng.below(last.min(9))
            } else {
                rng.between(0, last)
            };
            procedure.water.target = target;
            procedure.water.total = eighths as f64 / 8.0;
        }
        _ => {}
    }
    procedure
}

/// A random state of a module that fits.
pub fn fit_module(rng: &mut Rng, plan: &Plan, module: u8) -> Vec<u8> {
    let neighbours = plan.neighbours(module);
    let count = neighbours.count_ones() as usize;
    let held_count = if rng.chance(40) { count } else { rng.between(0, count) };
    let mut held = neighbours;
    while held.count_ones() as usize > held_count {
        held &= !(1 << held.ilog2());
    }
    let received = rng.pick(&[0, u64::MAX, 1]) & rng.word() | rng.pick(&[0, 0, 1 << 63]);
    let state = Module {
        own: fit_own(rng, plan, module),
        held,
        received: if held == 0 { 0 } else { received },
        bid: held != neighbours && rng.chance(60),
    };
    let mut bytes = vec![0; MODULE_BYTES];
    state.write(&mut bytes);
    bytes
}

/// A random state of a supervisor that fits.
pub fn fit_supervisor(rng: &mut Rng, plan: &Plan, supervisor: u8) -> Vec<u8> {
    let neighbours = plan.neighbour_modules(supervisor);
    let holder = rng.bit(u64::from(neighbours));
    let state = Supervisor {
        state: rng.below(usize::from(plan.supervisor_states[supervisor as usize])) as u8,
        noted: neighbours & rng.word() as u16 & rng.pick(&[0, 0xFFFF, 0xFFFF]),
        holder: holder.filter(|_| rng.chance(50)),
        last_served: rng.below(16) as u8,
    };
    let mut bytes = vec![0; SUPERVISOR_BYTES];
    state.write(&mut bytes);
    bytes
}

/// A random state of one device that fits.
pub fn fit_device(rng: &mut Rng, plan: &Plan) -> Vec<u8> {
    let mut bytes = vec![0; DEVICE_BYTES];
    for module in 0..plan.modules {
        fit_own(rng, plan, module).write(own_slot(&mut bytes, module));
    }
    for (slot, states) in supervisor_slots(&mut bytes).iter_mut().zip(&plan.supervisor_states) {
        *slot = rng.below(usize::from(*states)) as u8;
    }
    bytes
}

/// Floats that no total may be, whatever the target.
fn bad_total(rng: &mut Rng, target: f64) -> f64 {
    rng.pick(&[
        target,
        target + 0.125,
        -0.0,
        -0.125,
        0.0625,
        5e-324,
        f64::INFINITY,
        f64::NAN,
        f64::from_bits(0x7FF0_0000_0000_0001),
        f64::from_bits(0xFFF8_0000_0000_0007),
    ])
}

/// Clauses of fitting that `break_own` can break.
const OWN_CLAUSES: usize = 13;
/// Clauses of fitting for a module, its own part's included.
pub const MODULE_CLAUSES: usize = 6 + OWN_CLAUSES;
/// Clauses of fitting for a supervisor.
pub const SUPERVISOR_CLAUSES: usize = 7;
/// Clauses of fitting for one device, those of own parts included.
pub const DEVICE_CLAUSES: usize = 3 + OWN_CLAUSES;

/// Breaks a clause of an own part, as far as the plan has what the clause is about.
fn break_own(rng: &mut Rng, plan: &Plan, module: u8, bytes: &mut [u8], clause: usize) {
    let own = plan.module_events[module as usize];
    match clause {
        0 => bytes[0] = plan.module_states[module as usize].saturating_add(rng.pick(&[0, 1, 100])),
        1 => bytes[1] = rng.pick(&[9, 10, 128, 255]),
        2 => {
            bytes[1] = bytes[1].max(1);
            let wrong = rng.bit(!own | plan.controllable).unwrap_or(200);
            bytes[2 + rng.below(usize::from(bytes[1]))] = rng.pick(&[wrong, wrong, 64, 255]);
        }
        3 => {
            bytes[1] = bytes[1].min(7);
            bytes[rng.between(2 + usize::from(bytes[1]), 1 + QUEUE_LIMIT)] = rng.between(1, 255) as u8;
        }
        4 => bytes[10] = rng.pick(&[2, 128, 255]),
        5 => bytes[11] = rng.pick(&[rng.clone().bit(!own).unwrap_or(64), 64, 128, 255]),
        6 => bytes[12] = rng.pick(&[63, 64, 255, bytes[12].wrapping_add(1)]),
        7 => bytes[15] ^= 0x80,
        8 => bytes[23] ^= 0x80,
        9 => bytes[13..15].copy_from_slice(&rng.pick(&[0xFFFFu16, 256, 5, 4, 3, 2, 1]).to_be_bytes()),
        10 => bytes[15..23].copy_from_slice(&rng.pick(&[f64::NAN, 1.0, 0.125, -1.0, 5e-324]).to_be_bytes()),
        11 => {
            let target = f64::from_bits(bytes[15..23].iter().fold(0, |bits, &byte| bits << 8 | u64::from(byte)));
            bytes[23..31].copy_from_slice(&bad_total(rng, target).to_be_bytes());
        }
        _ => bytes[10] ^= 1,
    }
}

/// Breaks a clause of a module's state that fitted.
pub fn break_module(rng: &mut Rng, plan: &Plan, module: u8, bytes: &mut [u8], clause: usize) {
    let neighbours = plan.neighbours(module);
    let set_held = |bytes: &mut [u8], held: u32| bytes[35..39].copy_from_slice(&held.to_be_bytes());
    match clause {
        0 => set_held(bytes, neighbours | 1 << rng.below(32)),
        1 => set_held(bytes, neighbours & !(neighbours & neighbours.wrapping_neg())),
        2 => set_held(bytes, rng.word() as u32),
        3 => {
            set_held(bytes, 0);
            bytes[39 + rng.below(8)] = rng.between(1, 255) as u8;
        }
        4 => {
            set_held(bytes, neighbours);
            bytes[47] = 1;
        }
        5 => bytes[47] = rng.pick(&[2, 128, 255]),
        _ => break_own(rng, plan, module, &mut bytes[..OWN_BYTES], clause - 6),
    }
}

/// Breaks a clause of a supervisor's state that fitted.
pub fn break_supervisor(rng: &mut Rng, plan: &Plan, supervisor: u8, bytes: &mut [u8], clause: usize) {
    let strangers = !plan.neighbour_modules(supervisor);
    match clause {
        0 => bytes[0] = plan.supervisor_states[supervisor as usize].saturating_add(rng.pick(&[0, 1, 100])),
        1 => {
            let stranger = rng.bit(u64::from(strangers)).unwrap_or(0);
            let noted = u16::from_be_bytes([bytes[1], bytes[2]]) | 1 << stranger;
            bytes[1..3].copy_from_slice(&noted.to_be_bytes());
        }
        2 => {
            let stranger = rng.bit(u64::from(strangers)).unwrap_or(16);
            bytes[3..5].copy_from_slice(&[1, stranger]);
        }
        3 => bytes[3..5].copy_from_slice(&[1, rng.pick(&[16, 64, 255])]),
        4 => bytes[3] = rng.pick(&[2, 128, 255]),
        5 => bytes[3..5].copy_from_slice(&[0, rng.pick(&[1, 15, 255])]),
        _ => bytes[5] = rng.pick(&[16, 17, 255]),
    }
}

/// Breaks a clause of a device's state that fitted, often in a module or supervisor that the call does not name.
pub fn break_device(rng: &mut Rng, plan: &Plan, bytes: &mut [u8], clause: usize) {
    let lacking_modules = MODULE_SLOTS - usize::from(plan.modules);
    let supervisors = usize::from(plan.supervisors);
    match clause {
        0 if lacking_modules > 0 => {
            let at = usize::from(plan.modules) * OWN_BYTES + rng.below(lacking_modules * OWN_BYTES);
            bytes[at] = rng.between(1, 255) as u8;
        }
        1 if supervisors < SUPERVISOR_SLOTS => {
            let at = rng.between(supervisors, SUPERVISOR_SLOTS - 1);
            supervisor_slots(bytes)[at] = rng.between(1, 255) as u8;
        }
        2 if supervisors > 0 => {
            let at = rng.below(supervisors);
            supervisor_slots(bytes)[at] = plan.supervisor_states[at].saturating_add(rng.pick(&[0, 1, 100]));
        }
        _ => {
            let module = rng.below(usize::from(plan.modules)) as u8;
            break_own(rng, plan, module, own_slot(bytes, module), clause.saturating_sub(3));
        }
    }
}
