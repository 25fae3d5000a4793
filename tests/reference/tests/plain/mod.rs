//! The check in pieces as it is defined: a state by value, and what one byte makes of it, whatever the state. Written to be read, not to be
//! quick.

/// How far the check has come.
#[derive(Clone, Copy, Debug, PartialEq, Eq)]
pub enum Stage {
    Open,
    Ended,
    Faulty(u8, u32),
}

/// What is remembered of the records before.
#[derive(Clone, Debug, PartialEq, Eq)]
pub struct Context {
    pub begun: bool,
    /// Kind and key of the last record.
    pub last: [u8; 4],
    pub modules: u8,
    pub supervisors: u8,
    pub events: u8,
    pub events_known: u64,
    pub controllable: u64,
    pub owner: [u8; 64],
    pub steps: [u8; 64],
    pub modules_known: u64,
    pub module_states: [u8; 16],
    pub supervisors_known: u64,
    pub supervisor_states: [u8; 32],
    pub alphabet: [u64; 32],
}

#[derive(Clone, Debug, PartialEq, Eq)]
pub struct State {
    pub context: Context,
    pub cut: [u8; 12],
    pub held: u8,
    pub taken: u32,
    pub stage: Stage,
}

/// A record by its fields.
#[derive(Clone, Copy)]
enum Record {
    Head(u8, u8, u8),
    Event(u8, u8, u8),
    Module(u8, u8, u8),
    ModuleMove(u8, u8, u8, u8),
    Supervisor(u8, u8, u8, u64),
    SupervisorMove(u8, u8, u8, u8),
    Disabling(u8, u8, u64),
    Step(u8, u8, u8, u64),
    Marking(u8, u8),
    End,
}
use Record::{Disabling, End, Event, Head, Marking, Module, ModuleMove, Step, Supervisor, SupervisorMove};

const LIMIT: u32 = 49_152;

fn body_length(kind: u8) -> Option<u8> {
    [
        (0x10, 3),
        (0x11, 3),
        (0x12, 3),
        (0x13, 4),
        (0x14, 11),
        (0x15, 4),
        (0x16, 10),
        (0x17, 11),
        (0x18, 2),
        (0x1F, 0),
    ]
    .into_iter()
    .find_map(|(known, length)| (known == kind).then_some(length))
}

/// A number of some bytes, the high one first.
fn number(bytes: &[u8]) -> u64 {
    bytes.iter().fold(0, |number, &byte| number * 256 + u64::from(byte))
}

fn record_of(bytes: &[u8; 12]) -> Record {
    let [kind, a, b, c, d, ..] = *bytes;
    match kind {
        0x10 => Head(a, b, c),
        0x11 => Event(a, b, c),
        0x12 => Module(a, b, c),
        0x13 => ModuleMove(a, b, c, d),
        0x14 => Supervisor(a, b, c, number(&bytes[4..12])),
        0x15 => SupervisorMove(a, b, c, d),
        0x16 => Disabling(a, b, number(&bytes[3..11])),
        0x17 => Step(a, b, c, number(&bytes[4..12])),
        0x18 => Marking(a, b),
        _ => End,
    }
}

fn key_of(record: Record) -> [u8; 4] {
    match record {
        Head(..) => [0x10, 0, 0, 0],
        Event(event, ..) => [0x11, event, 0, 0],
        Module(module, ..) => [0x12, module, 0, 0],
        ModuleMove(module, from, event, _) => [0x13, module, from, event],
        Supervisor(supervisor, ..) => [0x14, supervisor, 0, 0],
        SupervisorMove(supervisor, from, event, _) => [0x15, supervisor, from, event],
        Disabling(supervisor, state, _) => [0x16, supervisor, state, 0],
        Step(event, index, ..) => [0x17, event, index, 0],
        Marking(module, state) => [0x18, module, state, 0],
        End => [0x1F, 0, 0, 0],
    }
}

fn in_range(record: Record) -> bool {
    match record {
        Head(modules, supervisors, events) => (1..=16).contains(&modules) && supervisors <= 32 && (1..=64).contains(&events),
        Event(_, _, class) => class <= 1,
        Module(_, states, _) => (1..=32).contains(&states),
        Supervisor(_, states, ..) => (1..=64).contains(&states),
        Disabling(_, _, mask) => mask != 0,
        Step(_, index, operation, operand) => index <= 63 && operand_in_range(operation, operand),
        ModuleMove(..) | SupervisorMove(..) | Marking(..) | End => true,
    }
}

fn operand_in_range(operation: u8, operand: u64) -> bool {
    match operation {
        1 | 2 => operand <= 31,
        3 => (1..=65_535).contains(&operand),
        4 => (1..=1_048_576).any(|eighths| (f64::from(eighths) / 8.0).to_bits() == operand),
        _ => operation == 5,
    }
}

fn bit(mask: u64, number: u64) -> bool {
    number < 64 && mask >> number & 1 == 1
}

/// Every event of a mask passes a test.
fn every_event(mask: u64, test: impl Fn(u64) -> bool) -> bool {
    (0..64).all(|event| !bit(mask, event) || test(event))
}

/// A mask with a bit on or off, and a table with an entry, if it is below so many.
fn with_bit(limit: u8, mask: &mut u64, at: u8, on: bool) {
    if at < limit {
        *mask = if on { *mask | 1 << at } else { *mask & !(1 << at) };
    }
}

fn with_entry<T>(table: &mut [T], at: u8, entry: T) {
    if usize::from(at) < table.len() {
        table[usize::from(at)] = entry;
    }
}

fn entry<T: Copy + Default>(table: &[T], at: u64) -> T {
    if at < table.len() as u64 {
        table[at as usize]
    } else {
        T::default()
    }
}

impl Context {
    fn start() -> Context {
        Context {
            begun: false,
            last: [0; 4],
            modules: 0,
            supervisors: 0,
            events: 0,
            events_known: 0,
            controllable: 0,
            owner: [0; 64],
            steps: [0; 64],
            modules_known: 0,
            module_states: [0; 16],
            supervisors_known: 0,
            supervisor_states: [0; 32],
            alphabet: [0; 32],
        }
    }

    fn event_known(&self, event: u64) -> bool {
        event < u64::from(self.events) && bit(self.events_known, event)
    }

    fn module_known(&self, module: u8) -> bool {
        module < self.modules && bit(self.modules_known, module.into())
    }

    fn supervisor_known(&self, supervisor: u8) -> bool {
        supervisor < self.supervisors && bit(self.supervisors_known, supervisor.into())
    }

    fn module_state(&self, module: u8, state: u8) -> bool {
        state < entry(&self.module_states, module.into())
    }

    fn supervisor_state(&self, supervisor: u8, state: u8) -> bool {
        state < entry(&self.supervisor_states, supervisor.into())
    }

    fn order(&self, record: Record) -> bool {
        if !self.begun {
            return matches!(record, Head(..));
        }
        let index = match record {
            Step(event, index, ..) => index == entry(&self.steps, event.into()),
            _ => true,
        };
        self.last < key_of(record) && index
    }

    fn names(&self, record: Record) -> bool {
        match record {
            Event(event, module, _) => event < self.events && module < self.modules,
            Module(module, states, initial) => module < self.modules && initial < states,
            ModuleMove(module, from, event, to) => {
                self.module_known(module)
                    && self.module_state(module, from)
                    && self.event_known(event.into())
                    && self.module_state(module, to)
            }
            Supervisor(supervisor, states, initial, alphabet) => {
                supervisor < self.supervisors && initial < states && every_event(alphabet, |event| bit(self.events_known, event))
            }
            SupervisorMove(supervisor, from, event, to) => {
                self.supervisor_known(supervisor)
                    && self.supervisor_state(supervisor, from)
                    && self.event_known(event.into())
                    && self.supervisor_state(supervisor, to)
            }
            Disabling(supervisor, state, mask) => {
                self.supervisor_known(supervisor)
                    && self.supervisor_state(supervisor, state)
                    && every_event(mask, |event| bit(self.events_known, event))
            }
            Step(event, _, operation, operand) => {
                self.event_known(event.into()) && (operation != 5 || (operand < 64 && self.event_known(operand)))
            }
            Marking(module, state) => self.module_known(module) && self.module_state(module, state),
            Head(..) | End => true,
        }
    }

    fn rules(&self, record: Record) -> bool {
        match record {
            ModuleMove(module, _, event, _) => entry(&self.owner, event.into()) == module,
            SupervisorMove(supervisor, _, event, _) => bit(entry(&self.alphabet, supervisor.into()), event.into()),
            Disabling(supervisor, _, mask) => {
                let alphabet = entry(&self.alphabet, supervisor.into());
                every_event(mask, |event| bit(self.controllable, event) && bit(alphabet, event))
            }
            Step(event, _, operation, operand) => {
                let response =
                    operand < 64 && !bit(self.controllable, operand) && entry(&self.owner, operand) == entry(&self.owner, event.into());
                bit(self.controllable, event.into()) && (operation != 5 || response)
            }
            _ => true,
        }
    }

    fn all_declared(&self, record: Record) -> bool {
        let all = |mask, count: u8| (0..u64::from(count)).all(|number| bit(mask, number));
        !matches!(record, End)
            || (all(self.modules_known, self.modules)
                && all(self.supervisors_known, self.supervisors)
                && all(self.events_known, self.events))
    }

    /// The smallest number that applies to a record, 0 where none does.
    fn judge(&self, record: Record) -> u8 {
        if !self.order(record) {
            4
        } else if !in_range(record) {
            5
        } else if !self.names(record) {
            6
        } else if !self.rules(record) {
            7
        } else if !self.all_declared(record) {
            8
        } else {
            0
        }
    }

    fn with_record(&mut self, record: Record) {
        self.begun = true;
        self.last = key_of(record);
        match record {
            Head(modules, supervisors, events) => {
                self.modules = modules;
                self.supervisors = supervisors;
                self.events = events;
            }
            Event(event, module, class) => {
                with_bit(64, &mut self.events_known, event, true);
                with_bit(64, &mut self.controllable, event, class == 1);
                with_entry(&mut self.owner, event, module);
            }
            Module(module, states, _) => {
                with_bit(16, &mut self.modules_known, module, true);
                with_entry(&mut self.module_states, module, states);
            }
            Supervisor(supervisor, states, _, alphabet) => {
                with_bit(32, &mut self.supervisors_known, supervisor, true);
                with_entry(&mut self.supervisor_states, supervisor, states);
                with_entry(&mut self.alphabet, supervisor, alphabet);
            }
            Step(event, index, ..) => with_entry(&mut self.steps, event, index.wrapping_add(1)),
            ModuleMove(..) | SupervisorMove(..) | Disabling(..) | Marking(..) | End => {}
        }
    }
}

impl State {
    pub fn start() -> State {
        State {
            context: Context::start(),
            cut: [0; 12],
            held: 0,
            taken: 0,
            stage: Stage::Open,
        }
    }

    /// Between two records, or past the last one.
    fn between(&mut self, stage: Stage, taken: u32) {
        self.cut = [0; 12];
        self.held = 0;
        self.taken = taken;
        self.stage = stage;
    }

    pub fn byte(&mut self, byte: u8) {
        if self.taken >= LIMIT {
            self.context = Context::start();
            return self.between(Stage::Open, LIMIT + 1);
        }
        let taken = self.taken + 1;
        match self.stage {
            Stage::Ended => return self.between(Stage::Faulty(4, self.taken), taken),
            Stage::Faulty(..) => return self.between(self.stage, taken),
            Stage::Open => {}
        }
        let begin = self.taken.saturating_sub(self.held.into());
        with_entry(&mut self.cut, self.held, byte);
        match body_length(self.cut[0]) {
            None => self.between(Stage::Faulty(2, begin), taken),
            Some(length) if length <= self.held => {
                let record = record_of(&self.cut);
                match self.context.judge(record) {
                    0 => {
                        self.context.with_record(record);
                        let ended = matches!(record, End);
                        self.between(if ended { Stage::Ended } else { Stage::Open }, taken);
                    }
                    number => self.between(Stage::Faulty(number, begin), taken),
                }
            }
            Some(_) => {
                self.held += 1;
                self.taken = taken;
            }
        }
    }

    /// The number and the offset, 0 and 0 if the image is accepted.
    pub fn verdict(&self) -> (u8, u32) {
        match self.stage {
            _ if self.taken > LIMIT => (1, 0),
            Stage::Open => (3, self.taken.saturating_sub(self.held.into())),
            Stage::Ended => (0, 0),
            Stage::Faulty(number, offset) => (number, offset),
        }
    }

    /// The state that 495 bytes stand for, if they do for one.
    pub fn read(bytes: &[u8]) -> Option<State> {
        if bytes.len() != 495 || bytes[0] > 2 || bytes[23] > 1 {
            return None;
        }
        let stage = match bytes[0] {
            2 if (2..=8).contains(&bytes[1]) => Stage::Faulty(bytes[1], number(&bytes[2..6]) as u32),
            0 if bytes[1..6] == [0; 5] => Stage::Open,
            1 if bytes[1..6] == [0; 5] => Stage::Ended,
            _ => return None,
        };
        let context = Context {
            begun: bytes[23] == 1,
            last: bytes[24..28].try_into().ok()?,
            modules: bytes[28],
            supervisors: bytes[29],
            events: bytes[30],
            events_known: number(&bytes[31..39]),
            controllable: number(&bytes[39..47]),
            owner: bytes[47..111].try_into().ok()?,
            steps: bytes[111..175].try_into().ok()?,
            modules_known: number(&bytes[175..183]),
            module_states: bytes[183..199].try_into().ok()?,
            supervisors_known: number(&bytes[199..207]),
            supervisor_states: bytes[207..239].try_into().ok()?,
            alphabet: std::array::from_fn(|supervisor| number(&bytes[239 + 8 * supervisor..247 + 8 * supervisor])),
        };
        Some(State {
            context,
            cut: bytes[11..23].try_into().ok()?,
            held: bytes[10],
            taken: number(&bytes[6..10]) as u32,
            stage,
        })
    }

    pub fn write(&self) -> Vec<u8> {
        let (stage, refused, offset) = match self.stage {
            Stage::Open => (0, 0, 0),
            Stage::Ended => (1, 0, 0),
            Stage::Faulty(number, offset) => (2, number, offset),
        };
        let context = &self.context;
        let mut bytes = vec![stage, refused];
        bytes.extend(offset.to_be_bytes());
        bytes.extend(self.taken.to_be_bytes());
        bytes.push(self.held);
        bytes.extend(self.cut);
        bytes.push(u8::from(context.begun));
        bytes.extend(context.last);
        bytes.extend([context.modules, context.supervisors, context.events]);
        bytes.extend(context.events_known.to_be_bytes());
        bytes.extend(context.controllable.to_be_bytes());
        bytes.extend(context.owner);
        bytes.extend(context.steps);
        bytes.extend(context.modules_known.to_be_bytes());
        bytes.extend(context.module_states);
        bytes.extend(context.supervisors_known.to_be_bytes());
        bytes.extend(context.supervisor_states);
        bytes.extend(context.alphabet.iter().flat_map(|mask| mask.to_be_bytes()));
        bytes
    }
}
