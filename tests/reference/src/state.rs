//! States as bytes, laid out as the C header says. Reading one gives none where the bytes stand for no state or do not fit the plan.

use crate::plan::{self, contains, Plan};

pub const OWN_BYTES: usize = 35;
pub const MODULE_BYTES: usize = 48;
pub const SUPERVISOR_BYTES: usize = 6;
pub const MODULE_SLOTS: usize = 16;
pub const SUPERVISOR_SLOTS: usize = 32;
/// One device: sixteen own parts, then the states of 32 supervisors.
pub const DEVICE_BYTES: usize = MODULE_SLOTS * OWN_BYTES + SUPERVISOR_SLOTS;
pub const QUEUE_LIMIT: usize = 8;

/// The water total of a running litres step.
#[derive(Clone, Copy, Debug, Default)]
pub struct Water {
    pub target: f64,
    pub total: f64,
}

/// A procedure; what it does not use at its step is 0, and everything is while it is idle.
#[derive(Clone, Copy, Debug, Default)]
pub struct Procedure {
    pub running: bool,
    pub event: u8,
    pub index: u8,
    pub count: u16,
    pub water: Water,
}

/// A module's own part: what it has on one device and on many alike.
#[derive(Clone, Copy, Debug, Default)]
pub struct Own {
    pub state: u8,
    pub queued: u8,
    pub queue: [u8; QUEUE_LIMIT],
    pub procedure: Procedure,
    pub outputs: u32,
}

impl Own {
    /// The starting state: initial, nothing queued, procedure idle, outputs off.
    pub fn start(plan: &Plan, module: u8) -> Own {
        Own {
            state: plan.module_initial[module as usize],
            ..Own::default()
        }
    }

    /// The own part in these bytes if it fits the plan.
    pub fn read(plan: &Plan, module: u8, bytes: &[u8; OWN_BYTES]) -> Option<Own> {
        let own = Own {
            state: bytes[0],
            queued: bytes[1],
            queue: part(bytes, 2),
            procedure: Procedure {
                running: flag(bytes[10])?,
                event: bytes[11],
                index: bytes[12],
                count: u16::from_be_bytes(part(bytes, 13)),
                water: Water {
                    target: f64::from_bits(u64::from_be_bytes(part(bytes, 15))),
                    total: f64::from_bits(u64::from_be_bytes(part(bytes, 23))),
                },
            },
            outputs: u32::from_be_bytes(part(bytes, 31)),
        };
        own.fits(plan, module).then_some(own)
    }

    pub fn write(&self, bytes: &mut [u8; OWN_BYTES]) {
        bytes[0] = self.state;
        bytes[1] = self.queued;
        bytes[2..10].copy_from_slice(&self.queue);
        bytes[10] = u8::from(self.procedure.running);
        bytes[11] = self.procedure.event;
        bytes[12] = self.procedure.index;
        bytes[13..15].copy_from_slice(&self.procedure.count.to_be_bytes());
        bytes[15..23].copy_from_slice(&self.procedure.water.target.to_bits().to_be_bytes());
        bytes[23..31].copy_from_slice(&self.procedure.water.total.to_bits().to_be_bytes());
        bytes[31..35].copy_from_slice(&self.outputs.to_be_bytes());
    }

    /// The state is the plan's, the queue holds at most 8, all the module's uncontrollable events, and the procedure fits.
    fn fits(&self, plan: &Plan, module: u8) -> bool {
        let queued = usize::from(self.queued);
        self.state < plan.module_states[module as usize]
            && queued <= QUEUE_LIMIT
            && self.queue[..queued].iter().all(|&event| plan.is_response(module, event))
            && self.queue[queued..].iter().all(|&event| event == 0)
            && self.procedure.fits(plan, module)
    }

    pub fn queue_full(&self) -> bool {
        usize::from(self.queued) == QUEUE_LIMIT
    }

    /// Queues a response; only where the queue is not full.
    pub fn push(&mut self, event: u8) {
        self.queue[usize::from(self.queued)] = event;
        self.queued += 1;
    }

    /// The responses that wait, the head first.
    pub fn waiting(&self) -> &[u8] {
        &self.queue[..usize::from(self.queued)]
    }

    /// Takes a waiting response out of the queue; those behind it move up.
    pub fn take_at(&mut self, index: usize) -> u8 {
        let event = self.queue[index];
        self.queue.copy_within(index + 1.., index);
        self.queue[QUEUE_LIMIT - 1] = 0;
        self.queued -= 1;
        event
    }
}

impl Procedure {
    /// Idle, or at an existing step of an event of the module, fields not used there 0.
    fn fits(&self, plan: &Plan, module: u8) -> bool {
        if !self.running {
            return self.event == 0 && self.index == 0 && self.count == 0 && self.water.is_zero();
        }
        if !contains(plan.module_events[module as usize], self.event) {
            return false;
        }
        match plan.step(self.event, self.index) {
            None => false,
            Some(step) if step.operation == plan::WAIT_TICKS => u64::from(self.count) < step.operand && self.water.is_zero(),
            Some(step) if step.operation == plan::WAIT_LITRES => self.count == 0 && self.water.fits(step.operand),
            Some(_) => self.count == 0 && self.water.is_zero(),
        }
    }
}

impl Water {
    /// Zero by bits: minus zero is none.
    fn is_zero(&self) -> bool {
        self.target.to_bits() == 0 && self.total.to_bits() == 0
    }

    /// The target is the plan's, the total from 0 to below it, a multiple of 1/8 and not minus zero.
    fn fits(&self, target: u64) -> bool {
        self.target.to_bits() == target && self.total.is_sign_positive() && self.total < self.target && plan::whole_eighths(self.total)
    }
}

/// A module on its own device.
#[derive(Clone, Copy, Debug)]
pub struct Module {
    pub own: Own,
    /// Permits held, bit v for supervisor v.
    pub held: u32,
    /// The union of the masks received with them.
    pub received: u64,
    /// Whether a bid is outstanding; its supervisor is the lowest neighbour not held.
    pub bid: bool,
}

impl Module {
    pub fn start(plan: &Plan, module: u8) -> Module {
        Module {
            own: Own::start(plan, module),
            held: 0,
            received: 0,
            bid: false,
        }
    }

    pub fn read(plan: &Plan, module: u8, bytes: &[u8]) -> Option<Module> {
        let bytes: &[u8; MODULE_BYTES] = bytes.try_into().ok()?;
        let state = Module {
            own: Own::read(plan, module, &part(bytes, 0))?,
            held: u32::from_be_bytes(part(bytes, 35)),
            received: u64::from_be_bytes(part(bytes, 39)),
            bid: flag(bytes[47])?,
        };
        state.fits(plan.neighbours(module)).then_some(state)
    }

    pub fn write(&self, bytes: &mut [u8]) {
        let mut own = [0; OWN_BYTES];
        self.own.write(&mut own);
        bytes[..35].copy_from_slice(&own);
        bytes[35..39].copy_from_slice(&self.held.to_be_bytes());
        bytes[39..47].copy_from_slice(&self.received.to_be_bytes());
        bytes[47] = u8::from(self.bid);
    }

    /// Held permits are the lowest neighbours, nothing is received when none is held, a bid is out only while one is missing.
    fn fits(&self, neighbours: u32) -> bool {
        let missing = neighbours & !self.held;
        let lowest = self.held & !neighbours == 0 && (missing == 0 || self.held < missing & missing.wrapping_neg());
        lowest && (self.held != 0 || self.received == 0) && (missing != 0 || !self.bid)
    }
}

/// A supervisor on its own device.
#[derive(Clone, Copy, Debug)]
pub struct Supervisor {
    pub state: u8,
    /// Modules whose bids are noted, bit m for module m.
    pub noted: u16,
    /// The module that holds the permit, none while it is home.
    pub holder: Option<u8>,
    pub last_served: u8,
}

impl Supervisor {
    pub fn start(plan: &Plan, supervisor: u8) -> Supervisor {
        Supervisor {
            state: plan.supervisor_initial[supervisor as usize],
            noted: 0,
            holder: None,
            last_served: 15,
        }
    }

    pub fn read(plan: &Plan, supervisor: u8, bytes: &[u8]) -> Option<Supervisor> {
        let bytes: &[u8; SUPERVISOR_BYTES] = bytes.try_into().ok()?;
        let holder = match (bytes[3], bytes[4]) {
            (0, 0) => None,
            (1, module) => Some(module),
            _ => return None,
        };
        let state = Supervisor {
            state: bytes[0],
            noted: u16::from_be_bytes([bytes[1], bytes[2]]),
            holder,
            last_served: bytes[5],
        };
        state.fits(plan, supervisor).then_some(state)
    }

    pub fn write(&self, bytes: &mut [u8]) {
        bytes[0] = self.state;
        bytes[1..3].copy_from_slice(&self.noted.to_be_bytes());
        bytes[3] = u8::from(self.holder.is_some());
        bytes[4] = self.holder.unwrap_or(0);
        bytes[5] = self.last_served;
    }

    /// Noted modules and holder are neighbours; the last-served place is 0 to 15.
    fn fits(&self, plan: &Plan, supervisor: u8) -> bool {
        let neighbours = plan.neighbour_modules(supervisor);
        self.state < plan.supervisor_states[supervisor as usize]
            && self.noted & !neighbours == 0
            && self.holder.is_none_or(|module| contains(u64::from(neighbours), module))
            && self.last_served <= 15
    }
}

/// Where a module's own part stands in the bytes of one device.
pub fn own_slot(state: &mut [u8], module: u8) -> &mut [u8; OWN_BYTES] {
    &mut state.as_chunks_mut().0[usize::from(module)]
}

/// The states of the 32 supervisors in the bytes of one device.
pub fn supervisor_slots(state: &mut [u8]) -> &mut [u8] {
    &mut state[MODULE_SLOTS * OWN_BYTES..]
}

/// Whether the bytes are a whole state of one device that fits: each slot the plan's, slots that the plan lacks 0.
pub fn device_fits(plan: &Plan, state: &[u8]) -> bool {
    if state.len() != DEVICE_BYTES {
        return false;
    }
    let (owns, supervisors) = state.split_at(MODULE_SLOTS * OWN_BYTES);
    let owns = owns.as_chunks::<OWN_BYTES>().0;
    let modules = usize::from(plan.modules);
    let count = usize::from(plan.supervisors);
    owns[..modules]
        .iter()
        .zip(0..)
        .all(|(own, module)| Own::read(plan, module, own).is_some())
        && owns[modules..].iter().all(|own| own == &[0; OWN_BYTES])
        && supervisors[..count]
            .iter()
            .zip(&plan.supervisor_states)
            .all(|(state, states)| state < states)
        && supervisors[count..].iter().all(|&state| state == 0)
}

/// N bytes from a place on.
fn part<const N: usize>(bytes: &[u8], at: usize) -> [u8; N] {
    let mut out = [0; N];
    out.copy_from_slice(&bytes[at..at + N]);
    out
}

fn flag(byte: u8) -> Option<bool> {
    match byte {
        0 => Some(false),
        1 => Some(true),
        _ => None,
    }
}
