//! Plans that the check accepts, by construction.

use super::{hex, Rng, PLAN_P};
use crate::plan::{self, IMAGE_LIMIT};

/// A plan taken apart: each record's bytes, its kind first.
pub type Records = Vec<Vec<u8>>;

pub fn image_of(records: &[Vec<u8>]) -> Vec<u8> {
    records.concat()
}

/// Takes an image apart by shape; what cannot be read is one last piece.
pub fn records_of(image: &[u8]) -> Records {
    let mut records = Vec::new();
    let mut offset = 0;
    while offset < image.len() {
        let length = match plan::read(image, offset) {
            Ok((_, body)) => 1 + body.len(),
            Err(_) => image.len() - offset,
        };
        records.push(image[offset..offset + length].to_vec());
        offset += length;
    }
    records
}

/// How big and how dense a random plan is; percentages where nothing else is said.
#[derive(Clone, Copy, Debug)]
pub(super) struct Shape {
    pub(super) modules: usize,
    pub(super) supervisors: usize,
    pub(super) events: usize,
    pub(super) module_states: usize,
    pub(super) supervisor_states: usize,
    pub(super) controllable: usize,
    pub(super) alphabet: usize,
    pub(super) module_moves: usize,
    pub(super) supervisor_moves: usize,
    pub(super) disablings: usize,
    /// At most this many steps for each event.
    pub(super) steps: usize,
    /// Modules with marks, each of whose states then is marked half of the time.
    pub(super) marks: usize,
    /// At most this many bytes, and exactly as many if `fill` and there is enough to fill with.
    pub(super) bytes: usize,
    pub(super) fill: bool,
}

pub(super) const MIDDLING: Shape = Shape {
    modules: 4,
    supervisors: 3,
    events: 12,
    module_states: 4,
    supervisor_states: 4,
    controllable: 55,
    alphabet: 40,
    module_moves: 60,
    supervisor_moves: 60,
    disablings: 50,
    steps: 4,
    marks: 50,
    bytes: IMAGE_LIMIT,
    fill: false,
};

/// A valid plan of some shape.
pub fn plan(rng: &mut Rng) -> Records {
    let shape = match rng.below(40) {
        0..=2 => return records_of(&hex(PLAN_P)),
        3..=6 => {
            let (pumps, valves) = (rng.between(1, 4), rng.between(1, 12));
            return orchard(pumps, valves);
        }
        7..=12 => tiny(rng),
        13..=30 => middling(rng),
        31..=34 => many_neighbours(rng),
        35 => Shape {
            bytes: IMAGE_LIMIT - rng.pick(&[0, 0, 1, 2, 40]),
            ..biggest()
        },
        36 => sparse(rng),
        _ => wide(rng),
    };
    random(rng, shape)
}

/// A valid plan on which a schedule soon gets somewhere, mostly: few neighbours and many moves.
pub fn lively_plan(rng: &mut Rng) -> Records {
    let shape = match rng.below(10) {
        0 => return records_of(&hex(PLAN_P)),
        1..=2 => {
            let (pumps, valves) = (rng.between(1, 2), rng.between(1, 4));
            return orchard(pumps, valves);
        }
        3..=6 => Shape {
            modules: rng.between(1, 4),
            supervisors: rng.between(1, 3),
            events: rng.between(3, 10),
            module_moves: 90,
            supervisor_moves: 80,
            disablings: 30,
            steps: 2,
            ..MIDDLING
        },
        _ => return plan(rng),
    };
    random(rng, shape)
}

/// A valid plan of exactly so many bytes where the parts suffice (from about 600 on).
pub fn sized(rng: &mut Rng, bytes: usize) -> Records {
    let shape = if bytes > 16_000 {
        Shape { bytes, ..biggest() }
    } else {
        Shape {
            modules: 6,
            supervisors: 4,
            events: 24,
            module_states: 8,
            supervisor_states: if bytes > 4_000 { 64 } else { 8 },
            alphabet: 60,
            module_moves: 50,
            supervisor_moves: 100,
            disablings: 30,
            steps: 2,
            bytes,
            fill: true,
            ..MIDDLING
        }
    };
    random(rng, shape)
}

fn tiny(rng: &mut Rng) -> Shape {
    Shape {
        modules: rng.between(1, 3),
        supervisors: rng.between(0, 2),
        events: rng.between(1, 4),
        module_states: 2,
        supervisor_states: 2,
        alphabet: 70,
        module_moves: 70,
        supervisor_moves: 70,
        ..MIDDLING
    }
}

fn middling(rng: &mut Rng) -> Shape {
    Shape {
        modules: rng.between(1, 6),
        supervisors: rng.between(0, 6),
        events: rng.between(4, 24),
        module_states: rng.between(1, 6),
        supervisor_states: rng.between(1, 6),
        controllable: rng.between(20, 80),
        alphabet: rng.between(10, 80),
        module_moves: rng.between(30, 90),
        steps: rng.between(0, 6),
        ..MIDDLING
    }
}

fn many_neighbours(rng: &mut Rng) -> Shape {
    Shape {
        modules: rng.between(2, 16),
        supervisors: rng.between(24, 32),
        events: rng.between(16, 64),
        alphabet: rng.between(60, 100),
        supervisor_states: 2,
        disablings: 20,
        ..MIDDLING
    }
}

/// Moves are few and procedures long.
fn sparse(rng: &mut Rng) -> Shape {
    Shape {
        modules: rng.between(1, 16),
        supervisors: rng.between(0, 32),
        events: rng.between(1, 64),
        module_states: 32,
        supervisor_states: 64,
        alphabet: 5,
        module_moves: 10,
        supervisor_moves: 5,
        disablings: 5,
        steps: 64,
        bytes: 12_000,
        ..MIDDLING
    }
}

/// As wide as numbers go, not too dense.
fn wide(rng: &mut Rng) -> Shape {
    Shape {
        modules: 16,
        supervisors: rng.between(16, 32),
        events: 64,
        module_states: rng.between(1, 4),
        supervisor_states: rng.between(1, 4),
        alphabet: rng.between(2, 20),
        ..MIDDLING
    }
}

fn biggest() -> Shape {
    Shape {
        modules: 16,
        supervisors: 32,
        events: 64,
        module_states: 32,
        supervisor_states: 64,
        alphabet: 60,
        module_moves: 80,
        supervisor_moves: 100,
        disablings: 30,
        steps: 8,
        fill: true,
        ..MIDDLING
    }
}

/// What of a plan being built later records must know.
struct Draft<'r> {
    rng: &'r mut Rng,
    shape: Shape,
    /// Bytes that may still be spent.
    room: usize,
    event_module: Vec<usize>,
    controllable: u64,
    module_states: Vec<usize>,
    supervisor_states: Vec<usize>,
    alphabets: Vec<u64>,
}

pub(super) fn random(rng: &mut Rng, shape: Shape) -> Records {
    let declared = 4 + 4 * shape.events + 4 * shape.modules + 12 * shape.supervisors + 1;
    let mut draft = Draft {
        rng,
        shape,
        room: shape.bytes - declared,
        event_module: Vec::new(),
        controllable: 0,
        module_states: Vec::new(),
        supervisor_states: Vec::new(),
        alphabets: Vec::new(),
    };
    let events = draft.events();
    let modules = draft.modules();
    let supervisors = draft.supervisors();
    let mut marks = draft.marks();
    let mut steps = draft.steps();
    let disablings = draft.disablings();
    let module_moves = draft.module_moves();
    // Moves are five bytes: dropping last steps of twelve, then marks of three, makes the room a multiple of five.
    while shape.fill && !draft.room.is_multiple_of(5) {
        let Some(dropped) = steps.pop().or_else(|| marks.pop()) else {
            break;
        };
        draft.room += dropped.len();
    }
    let supervisor_moves = draft.supervisor_moves();
    let head = vec![plan::HEAD, shape.modules as u8, shape.supervisors as u8, shape.events as u8];
    let mut records = vec![head];
    for section in [
        events,
        modules,
        module_moves,
        supervisors,
        supervisor_moves,
        disablings,
        steps,
        marks,
    ] {
        records.extend(section);
    }
    records.push(vec![plan::END]);
    assert!(plan::check(&image_of(&records)).is_ok(), "a plan valid by construction");
    records
}

impl Draft<'_> {
    /// Whether a record of so many bytes may still be added; then they are spent.
    fn spend(&mut self, bytes: usize) -> bool {
        let enough = self.room >= bytes;
        if enough {
            self.room -= bytes;
        }
        enough
    }

    fn events(&mut self) -> Records {
        let mut records = Vec::new();
        for event in 0..self.shape.events {
            let module = self.rng.below(self.shape.modules);
            let class = self.rng.chance(self.shape.controllable);
            self.event_module.push(module);
            self.controllable |= u64::from(class) << event;
            records.push(vec![plan::EVENT, event as u8, module as u8, u8::from(class)]);
        }
        records
    }

    /// A number of states up to a limit, and an initial one.
    fn states(&mut self, limit: usize) -> (usize, usize) {
        let states = if self.shape.fill { limit } else { self.rng.between(1, limit) };
        (states, self.rng.below(states))
    }

    fn modules(&mut self) -> Records {
        let mut records = Vec::new();
        for module in 0..self.shape.modules {
            let (states, initial) = self.states(self.shape.module_states);
            self.module_states.push(states);
            records.push(vec![plan::MODULE, module as u8, states as u8, initial as u8]);
        }
        records
    }

    fn supervisors(&mut self) -> Records {
        let mut records = Vec::new();
        for supervisor in 0..self.shape.supervisors {
            let (states, initial) = self.states(self.shape.supervisor_states);
            self.supervisor_states.push(states);
            let alphabet = (0..self.shape.events)
                .filter(|_| self.rng.chance(self.shape.alphabet))
                .fold(0, |mask, event| mask | 1 << event);
            self.alphabets.push(alphabet);
            let mut record = vec![plan::SUPERVISOR, supervisor as u8, states as u8, initial as u8];
            record.extend_from_slice(&u64::to_be_bytes(alphabet));
            records.push(record);
        }
        records
    }

    fn module_moves(&mut self) -> Records {
        let mut records = Vec::new();
        for module in 0..self.shape.modules {
            let states = self.module_states[module];
            for from in 0..states {
                for event in 0..self.shape.events {
                    let listed = self.event_module[event] == module && self.rng.chance(self.shape.module_moves);
                    if listed && self.spend(5) {
                        let to = self.rng.below(states);
                        records.push(vec![plan::MODULE_MOVE, module as u8, from as u8, event as u8, to as u8]);
                    }
                }
            }
        }
        records
    }

    fn supervisor_moves(&mut self) -> Records {
        let mut records = Vec::new();
        for supervisor in 0..self.shape.supervisors {
            let states = self.supervisor_states[supervisor];
            for from in 0..states {
                for event in 0..self.shape.events {
                    let listed = plan::contains(self.alphabets[supervisor], event as u8) && self.rng.chance(self.shape.supervisor_moves);
                    if listed && self.spend(5) {
                        let to = self.rng.below(states);
                        let fields = [supervisor as u8, from as u8, event as u8, to as u8];
                        records.push([&[plan::SUPERVISOR_MOVE], &fields[..]].concat());
                    }
                }
            }
        }
        records
    }

    fn disablings(&mut self) -> Records {
        let mut records = Vec::new();
        for supervisor in 0..self.shape.supervisors {
            for state in 0..self.supervisor_states[supervisor] {
                let mask = self.alphabets[supervisor] & self.controllable & self.rng.word();
                if mask != 0 && self.rng.chance(self.shape.disablings) && self.spend(11) {
                    let mut record = vec![plan::DISABLING, supervisor as u8, state as u8];
                    record.extend_from_slice(&mask.to_be_bytes());
                    records.push(record);
                }
            }
        }
        records
    }

    fn steps(&mut self) -> Records {
        let mut records = Vec::new();
        for event in 0..self.shape.events {
            if !plan::contains(self.controllable, event as u8) {
                continue;
            }
            for index in 0..self.rng.between(0, self.shape.steps) {
                if !self.spend(12) {
                    break;
                }
                let (operation, operand) = self.operation(event);
                let mut record = vec![plan::STEP, event as u8, index as u8, operation];
                record.extend_from_slice(&operand.to_be_bytes());
                records.push(record);
            }
        }
        records
    }

    fn marks(&mut self) -> Records {
        let mut records = Vec::new();
        for module in 0..self.shape.modules {
            if !self.rng.chance(self.shape.marks) {
                continue;
            }
            for state in 0..self.module_states[module] {
                if self.rng.chance(50) && self.spend(3) {
                    records.push(vec![plan::MARKING, module as u8, state as u8]);
                }
            }
        }
        records
    }

    /// An operation for a step of an event and its operand.
    fn operation(&mut self, event: usize) -> (u8, u64) {
        let responses = (0..self.shape.events)
            .filter(|&other| self.event_module[other] == self.event_module[event])
            .fold(0u64, |mask, other| mask | 1 << other)
            & !self.controllable;
        match self.rng.between(1, 5) as u8 {
            plan::WAIT_TICKS if self.rng.chance(90) => (plan::WAIT_TICKS, self.rng.between(1, 4) as u64),
            plan::WAIT_TICKS => (plan::WAIT_TICKS, self.rng.pick(&[256, 1000, 65_535])),
            plan::WAIT_LITRES if self.rng.chance(90) => {
                let eighths = self.rng.between(1, 160) as u32;
                (plan::WAIT_LITRES, (f64::from(eighths) / 8.0).to_bits())
            }
            plan::WAIT_LITRES => (
                plan::WAIT_LITRES,
                self.rng.pick(&[131_072.0f64, 131_071.875, 0.125, 64.0]).to_bits(),
            ),
            plan::RESPOND => match self.rng.bit(responses) {
                Some(response) => (plan::RESPOND, u64::from(response)),
                None => (plan::OUTPUT_ON, self.rng.below(32) as u64),
            },
            output => (output, self.rng.below(32) as u64),
        }
    }
}

/// Pumps and valves with four events each: open, opened, close, closed. A pump may start only while each of its valves is open, and
/// such a valve may close only while the pump is still. At most 16 of both and 32 supervisors.
pub fn orchard(pumps: usize, valves: usize) -> Records {
    let modules = (pumps + valves).min(16);
    let pairs: Vec<(usize, usize)> = (pumps..modules).map(|valve| (valve % pumps, valve)).collect();
    let supervisors = 2 * pairs.len();
    let mut records = vec![vec![plan::HEAD, modules as u8, supervisors as u8, 4 * modules as u8]];
    for event in 0..4 * modules {
        let commanded = u8::from(event % 2 == 0);
        records.push(vec![plan::EVENT, event as u8, (event / 4) as u8, commanded]);
    }
    for module in 0..modules {
        records.push(vec![plan::MODULE, module as u8, 4, 0]);
    }
    for module in 0..modules {
        for from in 0..4 {
            let event = 4 * module + from;
            records.push(vec![plan::MODULE_MOVE, module as u8, from as u8, event as u8, (from as u8 + 1) % 4]);
        }
    }
    records.extend(orchard_supervisors(&pairs));
    for module in 0..modules {
        records.extend(orchard_steps(module, module < pumps));
    }
    records.push(vec![plan::END]);
    assert!(plan::check(&image_of(&records)).is_ok(), "a plan valid by construction");
    records
}

/// Two supervisors for each pump and valve: a guard of the pump's start and one of the valve's closing.
fn orchard_supervisors(pairs: &[(usize, usize)]) -> Records {
    let (mut heads, mut moves, mut disablings) = (Vec::new(), Vec::new(), Vec::new());
    for (place, &(pump, valve)) in pairs.iter().enumerate() {
        let start = 4 * pump;
        let (opened, close) = (4 * valve + 1, 4 * valve + 2);
        // (set, reset, the event disabled, and in which state)
        let guards = [(opened, close, start, 0), (start, start + 3, close, 1)];
        for (second, (set, reset, disabled, state)) in guards.into_iter().enumerate() {
            let number = (2 * place + second) as u8;
            let alphabet = 1u64 << set | 1 << reset | 1 << disabled;
            heads.push([&[plan::SUPERVISOR, number, 2, 0], &alphabet.to_be_bytes()[..]].concat());
            moves.push(vec![plan::SUPERVISOR_MOVE, number, 0, set as u8, 1]);
            moves.push(vec![plan::SUPERVISOR_MOVE, number, 1, reset as u8, 0]);
            disablings.push([&[plan::DISABLING, number, state], &(1u64 << disabled).to_be_bytes()[..]].concat());
        }
    }
    [heads, moves, disablings].concat()
}

/// Opening switches an output on, waits and reports; closing switches it off and reports. A pump waits for litres.
fn orchard_steps(module: usize, pump: bool) -> Records {
    let step = |event: usize, index: u8, operation: u8, operand: u64| {
        [&[plan::STEP, event as u8, index, operation], &operand.to_be_bytes()[..]].concat()
    };
    let open = 4 * module;
    let wait = if pump {
        (plan::WAIT_LITRES, 12.5f64.to_bits())
    } else {
        (plan::WAIT_TICKS, 3)
    };
    vec![
        step(open, 0, plan::OUTPUT_ON, 0),
        step(open, 1, wait.0, wait.1),
        step(open, 2, plan::RESPOND, open as u64 + 1),
        step(open + 2, 0, plan::OUTPUT_OFF, 0),
        step(open + 2, 1, plan::RESPOND, open as u64 + 3),
    ]
}
