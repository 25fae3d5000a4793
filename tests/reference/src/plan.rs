//! Plan records: their reader, checker and writer, and look-ups in a plan that the check accepted.

use crate::answer::{refusal, Refusal, Result};

/// An image over this many bytes is refused with 1.
pub const IMAGE_LIMIT: usize = 49_152;
/// The longest record, its kind included.
pub const RECORD_BYTES: usize = 12;

pub const HEAD: u8 = 0x10;
pub const EVENT: u8 = 0x11;
pub const MODULE: u8 = 0x12;
pub const MODULE_MOVE: u8 = 0x13;
pub const SUPERVISOR: u8 = 0x14;
pub const SUPERVISOR_MOVE: u8 = 0x15;
pub const DISABLING: u8 = 0x16;
pub const STEP: u8 = 0x17;
pub const MARKING: u8 = 0x18;
pub const END: u8 = 0x1F;

pub const OUTPUT_ON: u8 = 1;
pub const OUTPUT_OFF: u8 = 2;
pub const WAIT_TICKS: u8 = 3;
pub const WAIT_LITRES: u8 = 4;
pub const RESPOND: u8 = 5;

/// The body's length, which the kind alone fixes; none for an unknown kind.
pub const fn body_length(kind: u8) -> Option<usize> {
    match kind {
        HEAD | EVENT | MODULE => Some(3),
        MODULE_MOVE | SUPERVISOR_MOVE => Some(4),
        SUPERVISOR | STEP => Some(11),
        DISABLING => Some(10),
        MARKING => Some(2),
        END => Some(0),
        _ => None,
    }
}

/// How many one-byte fields a body begins with; what follows is one field of eight bytes.
pub(crate) const fn byte_fields(kind: u8) -> usize {
    match kind {
        HEAD | EVENT | MODULE | SUPERVISOR | STEP => 3,
        MODULE_MOVE | SUPERVISOR_MOVE => 4,
        DISABLING | MARKING => 2,
        _ => 0,
    }
}

/// Reads the record at an offset by shape alone: its kind and body.
pub fn read(image: &[u8], offset: usize) -> Result<(u8, &[u8])> {
    let refuse = |number, offset: usize| {
        Err(Refusal {
            number,
            offset: offset as u32,
        })
    };
    let Some(&kind) = image.get(offset) else {
        return refuse(3, image.len());
    };
    let Some(length) = body_length(kind) else {
        return refuse(2, offset);
    };
    match image[offset + 1..].get(..length) {
        Some(body) => Ok((kind, body)),
        None => refuse(3, offset),
    }
}

/// Writes one record; 5 for what the record alone can tell, then 15.
pub fn write(kind: u8, fields: [u8; 4], word: u64, buffer: &mut [u8]) -> Result<usize> {
    let length = 1 + body_length(kind).ok_or(refusal(5))?;
    let in_range = match kind {
        HEAD => counts_in_range(fields[0], fields[1], fields[2]),
        EVENT => class_in_range(fields[2]),
        MODULE => module_states_in_range(fields[1]),
        SUPERVISOR => supervisor_states_in_range(fields[1]),
        DISABLING => word != 0,
        STEP => step_in_range(fields[1], fields[2], word),
        _ => true,
    };
    if !in_range {
        return Err(refusal(5));
    }
    let record = buffer.get_mut(..length).ok_or(refusal(15))?;
    let (bytes, eight) = record.split_at_mut(1 + byte_fields(kind));
    bytes[0] = kind;
    bytes[1..].copy_from_slice(&fields[..byte_fields(kind)]);
    if !eight.is_empty() {
        eight.copy_from_slice(&word.to_be_bytes());
    }
    Ok(length)
}

/// The field of eight bytes at the end of a body.
pub(crate) fn word(body: &[u8]) -> u64 {
    body.last_chunk().map_or(0, |bytes| u64::from_be_bytes(*bytes))
}

/// Whether a number is a multiple of 1/8; only for numbers from 0 to 2^28.
pub fn whole_eighths(litres: f64) -> bool {
    let eighths = litres * 8.0;
    f64::from(eighths as u32) == eighths
}

/// Operand of a litres step: f64 bits, a multiple of 1/8 from 0.125 to 131,072.
fn target_in_range(bits: u64) -> bool {
    let litres = f64::from_bits(bits);
    (0.125..=131_072.0).contains(&litres) && whole_eighths(litres)
}

pub(crate) fn counts_in_range(modules: u8, supervisors: u8, events: u8) -> bool {
    matches!(modules, 1..=16) && supervisors <= 32 && matches!(events, 1..=64)
}

pub(crate) fn class_in_range(class: u8) -> bool {
    class <= 1
}

pub(crate) fn module_states_in_range(states: u8) -> bool {
    matches!(states, 1..=32)
}

pub(crate) fn supervisor_states_in_range(states: u8) -> bool {
    matches!(states, 1..=64)
}

/// Whether the index is in range, the operation known and its operand in range; a respond operand is never out of range.
pub(crate) fn step_in_range(index: u8, operation: u8, operand: u64) -> bool {
    index <= 63
        && match operation {
            OUTPUT_ON | OUTPUT_OFF => operand <= 31,
            WAIT_TICKS => matches!(operand, 1..=65_535),
            WAIT_LITRES => target_in_range(operand),
            RESPOND => true,
            _ => false,
        }
}

/// One step of an event's procedure.
#[derive(Clone, Copy, Debug, PartialEq, Eq)]
pub struct Step {
    pub operation: u8,
    pub operand: u64,
}

/// An accepted plan: small tables of what it declares, and the runs of its longer sections in the image itself.
#[derive(Clone, Debug)]
pub struct Plan<'a> {
    pub modules: u8,
    pub supervisors: u8,
    pub events: u8,
    /// The controllable events.
    pub controllable: u64,
    /// The module of each event.
    pub event_module: [u8; 64],
    /// The events of each module.
    pub module_events: [u64; 16],
    pub module_states: [u8; 16],
    pub module_initial: [u8; 16],
    /// The marked states of each module, bit s for state s: those that have a record, or all where none has.
    pub marked: [u32; 16],
    pub supervisor_states: [u8; 32],
    pub supervisor_initial: [u8; 32],
    pub alphabet: [u64; 32],
    pub(crate) module_moves: &'a [[u8; 5]],
    pub(crate) supervisor_moves: &'a [[u8; 5]],
    pub(crate) disablings: &'a [[u8; 11]],
    steps: &'a [[u8; 12]],
}

impl Plan<'_> {
    /// Where a module's move by an event leads.
    pub fn module_move(&self, module: u8, from: u8, event: u8) -> Option<u8> {
        find(self.module_moves, [MODULE_MOVE, module, from, event]).map(|record| record[4])
    }

    /// The events by which a module has a move in a state.
    pub fn events_from(&self, module: u8, from: u8) -> u64 {
        let first = first_not_below(self.module_moves, [MODULE_MOVE, module, from, 0]);
        self.module_moves[first..]
            .iter()
            .take_while(|record| record[1] == module && record[2] == from)
            .fold(0, |events, record| events | 1 << record[3])
    }

    /// Where a supervisor stands after an event: one outside its alphabet or without a listed move leaves it where it is.
    pub fn supervisor_after(&self, supervisor: u8, from: u8, event: u8) -> u8 {
        if !contains(self.alphabet[supervisor as usize], event) {
            return from;
        }
        find(self.supervisor_moves, [SUPERVISOR_MOVE, supervisor, from, event]).map_or(from, |record| record[4])
    }

    /// The mask that a supervisor shows in a state, 0 if none.
    pub fn shown(&self, supervisor: u8, state: u8) -> u64 {
        find(self.disablings, [0, DISABLING, supervisor, state]).map_or(0, |record| word(&record[1..]))
    }

    /// A step of an event's procedure, if it has one of that index.
    pub fn step(&self, event: u8, index: u8) -> Option<Step> {
        find(self.steps, [0, STEP, event, index]).map(|record| Step {
            operation: record[3],
            operand: word(&record[1..]),
        })
    }

    pub fn has_module(&self, module: u8) -> bool {
        module < self.modules
    }

    pub fn has_supervisor(&self, supervisor: u8) -> bool {
        supervisor < self.supervisors
    }

    /// Whether an event is an uncontrollable one of the module.
    pub fn is_response(&self, module: u8, event: u8) -> bool {
        contains(self.module_events[module as usize] & !self.controllable, event)
    }

    /// A supervisor is a module's neighbour if its alphabet has an event of that module.
    pub fn are_neighbours(&self, module: u8, supervisor: u8) -> bool {
        self.alphabet[supervisor as usize] & self.module_events[module as usize] != 0
    }

    /// The neighbour mask of a module, bit v for supervisor v.
    pub fn neighbours(&self, module: u8) -> u32 {
        (0..self.supervisors)
            .filter(|&supervisor| self.are_neighbours(module, supervisor))
            .fold(0, |mask, supervisor| mask | 1 << supervisor)
    }

    /// The modules that a supervisor is a neighbour of, bit m for module m.
    pub fn neighbour_modules(&self, supervisor: u8) -> u16 {
        (0..self.modules)
            .filter(|&module| self.are_neighbours(module, supervisor))
            .fold(0, |mask, module| mask | 1 << module)
    }
}

/// Whether a mask has an event, or another small number.
pub fn contains(mask: u64, number: u8) -> bool {
    number < 64 && mask >> number & 1 == 1
}

/// The leading bytes of a record as one number: ascending records ascend in it. Kinds with a key of two fields begin with a zero.
fn leading<const N: usize>(record: &[u8; N]) -> u32 {
    if N == 5 {
        u32::from_be_bytes([record[0], record[1], record[2], record[3]])
    } else {
        u32::from_be_bytes([0, record[0], record[1], record[2]])
    }
}

fn first_not_below<const N: usize>(records: &[[u8; N]], key: [u8; 4]) -> usize {
    let key = u32::from_be_bytes(key);
    records.partition_point(|record| leading(record) < key)
}

fn find<const N: usize>(records: &[[u8; N]], key: [u8; 4]) -> Option<&[u8; N]> {
    let key = u32::from_be_bytes(key);
    let place = records.binary_search_by_key(&key, leading).ok()?;
    Some(&records[place])
}

/// Checks a plan image: the first faulty record counts, and within it the smallest number that applies.
pub fn check(image: &[u8]) -> Result<Plan<'_>> {
    if image.len() > IMAGE_LIMIT {
        return Err(refusal(1));
    }
    let mut check = Check::new();
    let mut offset = 0;
    loop {
        let rest = &image[offset..];
        let refuse = |number| Refusal {
            number,
            offset: offset as u32,
        };
        let length = check.record(rest).map_err(refuse)?;
        let kind = rest[0];
        check.extend(kind, offset, offset + length);
        offset += length;
        if kind == END {
            break;
        }
    }
    // A byte after the end record is 4 at its own offset and is not read as a kind.
    if offset < image.len() {
        return Err(Refusal {
            number: 4,
            offset: offset as u32,
        });
    }
    Ok(check.finish(image))
}

/// What the records so far have declared.
struct Check<'a> {
    plan: Plan<'a>,
    events: u64,
    modules: u64,
    supervisors: u64,
    /// Kind and key of the last record, 0 before the first.
    last: u32,
    /// Where the records of each kind begin and end.
    spans: [(usize, usize); 16],
}

pub(crate) type Verdict = core::result::Result<(), u8>;

/// Good, or the number given.
pub(crate) fn demand(good: bool, number: u8) -> Verdict {
    if good {
        Ok(())
    } else {
        Err(number)
    }
}

impl<'a> Check<'a> {
    fn new() -> Self {
        let plan = Plan {
            modules: 0,
            supervisors: 0,
            events: 0,
            controllable: 0,
            event_module: [0; 64],
            module_events: [0; 16],
            module_states: [0; 16],
            module_initial: [0; 16],
            marked: [0; 16],
            supervisor_states: [0; 32],
            supervisor_initial: [0; 32],
            alphabet: [0; 32],
            module_moves: &[],
            supervisor_moves: &[],
            disablings: &[],
            steps: &[],
        };
        Check {
            plan,
            events: 0,
            modules: 0,
            supervisors: 0,
            last: 0,
            spans: [(0, 0); 16],
        }
    }

    /// Judges the first record of what is left and gives its length. Within a record shape comes first, 2 and 3, then order 4, range
    /// 5, names 6 and the rules of events 7; at the end 8.
    fn record(&mut self, rest: &[u8]) -> core::result::Result<usize, u8> {
        match *rest {
            [MODULE_MOVE, module, from, event, to, ..] => self.module_move(module, from, event, to)?,
            [SUPERVISOR_MOVE, supervisor, from, event, to, ..] => self.supervisor_move(supervisor, from, event, to)?,
            [DISABLING, supervisor, state, a, b, c, d, e, f, g, h, ..] => {
                self.disabling(supervisor, state, u64::from_be_bytes([a, b, c, d, e, f, g, h]))?;
            }
            [STEP, event, index, operation, a, b, c, d, e, f, g, h, ..] => {
                self.step(event, index, operation, u64::from_be_bytes([a, b, c, d, e, f, g, h]))?;
            }
            [MARKING, module, state, ..] => self.marking(module, state)?,
            [HEAD, modules, supervisors, events, ..] => self.head(modules, supervisors, events)?,
            [EVENT, number, module, class, ..] => self.event(number, module, class)?,
            [MODULE, number, states, initial, ..] => self.module(number, states, initial)?,
            [SUPERVISOR, number, states, initial, a, b, c, d, e, f, g, h, ..] => {
                self.supervisor(number, states, initial, u64::from_be_bytes([a, b, c, d, e, f, g, h]))?;
            }
            [END, ..] => self.end()?,
            [kind, ..] if body_length(kind).is_none() => return Err(2),
            _ => return Err(3),
        }
        Ok(1 + body_length(rest[0]).unwrap_or(0))
    }

    /// The head comes first; records ascend by kind, then strictly by key.
    fn ascend(&mut self, kind: u8, first: u8, second: u8, third: u8) -> Verdict {
        let key = u32::from_be_bytes([kind, first, second, third]);
        demand(self.last != 0 && self.last < key, 4)?;
        self.last = key;
        Ok(())
    }

    fn head(&mut self, modules: u8, supervisors: u8, events: u8) -> Verdict {
        demand(self.last == 0, 4)?;
        self.last = u32::from_be_bytes([HEAD, 0, 0, 0]);
        demand(counts_in_range(modules, supervisors, events), 5)?;
        self.plan.modules = modules;
        self.plan.supervisors = supervisors;
        self.plan.events = events;
        Ok(())
    }

    /// The number that a record declares, and the module of an event, need only be below the count.
    fn event(&mut self, number: u8, module: u8, class: u8) -> Verdict {
        self.ascend(EVENT, number, 0, 0)?;
        demand(class_in_range(class), 5)?;
        demand(number < self.plan.events && module < self.plan.modules, 6)?;
        self.events |= 1 << number;
        self.plan.controllable |= u64::from(class) << number;
        self.plan.event_module[number as usize] = module;
        self.plan.module_events[module as usize] |= 1 << number;
        Ok(())
    }

    fn module(&mut self, number: u8, states: u8, initial: u8) -> Verdict {
        self.ascend(MODULE, number, 0, 0)?;
        demand(module_states_in_range(states), 5)?;
        demand(number < self.plan.modules && initial < states, 6)?;
        self.modules |= 1 << number;
        self.plan.module_states[number as usize] = states;
        self.plan.module_initial[number as usize] = initial;
        Ok(())
    }

    fn module_move(&mut self, module: u8, from: u8, event: u8, to: u8) -> Verdict {
        self.ascend(MODULE_MOVE, module, from, event)?;
        demand(contains(self.modules, module) && contains(self.events, event), 6)?;
        let states = self.plan.module_states[module as usize];
        demand(from < states && to < states, 6)?;
        demand(self.plan.event_module[event as usize] == module, 7)
    }

    fn supervisor(&mut self, number: u8, states: u8, initial: u8, alphabet: u64) -> Verdict {
        self.ascend(SUPERVISOR, number, 0, 0)?;
        demand(supervisor_states_in_range(states), 5)?;
        demand(number < self.plan.supervisors && initial < states, 6)?;
        demand(alphabet & !self.events == 0, 6)?;
        self.supervisors |= 1 << number;
        self.plan.supervisor_states[number as usize] = states;
        self.plan.supervisor_initial[number as usize] = initial;
        self.plan.alphabet[number as usize] = alphabet;
        Ok(())
    }

    fn supervisor_move(&mut self, supervisor: u8, from: u8, event: u8, to: u8) -> Verdict {
        self.ascend(SUPERVISOR_MOVE, supervisor, from, event)?;
        demand(contains(self.supervisors, supervisor) && contains(self.events, event), 6)?;
        let states = self.plan.supervisor_states[supervisor as usize];
        demand(from < states && to < states, 6)?;
        demand(contains(self.plan.alphabet[supervisor as usize], event), 7)
    }

    fn disabling(&mut self, supervisor: u8, state: u8, mask: u64) -> Verdict {
        self.ascend(DISABLING, supervisor, state, 0)?;
        demand(mask != 0, 5)?;
        demand(contains(self.supervisors, supervisor), 6)?;
        demand(state < self.plan.supervisor_states[supervisor as usize], 6)?;
        demand(mask & !self.events == 0, 6)?;
        let allowed = self.plan.controllable & self.plan.alphabet[supervisor as usize];
        demand(mask & !allowed == 0, 7)
    }

    /// Step indices of an event run 0, 1, 2 without a gap. Only controllable events have steps; a respond operand is an uncontrollable
    /// event of the same module.
    fn step(&mut self, event: u8, index: u8, operation: u8, operand: u64) -> Verdict {
        let last = self.last.to_be_bytes();
        self.ascend(STEP, event, index, 0)?;
        let due = if last[..2] == [STEP, event] { last[2] + 1 } else { 0 };
        demand(index == due, 4)?;
        demand(step_in_range(index, operation, operand), 5)?;
        demand(contains(self.events, event), 6)?;
        let respond = operation == RESPOND;
        demand(!respond || (operand < 64 && contains(self.events, operand as u8)), 6)?;
        demand(contains(self.plan.controllable, event), 7)?;
        let module = self.plan.event_module[event as usize];
        demand(!respond || self.plan.is_response(module, operand as u8), 7)
    }

    fn marking(&mut self, module: u8, state: u8) -> Verdict {
        self.ascend(MARKING, module, state, 0)?;
        demand(contains(self.modules, module), 6)?;
        demand(state < self.plan.module_states[module as usize], 6)?;
        self.plan.marked[module as usize] |= 1 << state;
        Ok(())
    }

    /// Every number that the head promised is declared; none above was, so counting them suffices.
    fn end(&mut self) -> Verdict {
        self.ascend(END, 0, 0, 0)?;
        let whole = self.modules.count_ones() == u32::from(self.plan.modules)
            && self.supervisors.count_ones() == u32::from(self.plan.supervisors)
            && self.events.count_ones() == u32::from(self.plan.events);
        demand(whole, 8)
    }

    /// Records of one kind stand together: notes where they begin and end.
    fn extend(&mut self, kind: u8, offset: usize, next: usize) {
        let span = &mut self.spans[usize::from(kind & 0x0F)];
        if span.1 == 0 {
            span.0 = offset;
        }
        span.1 = next;
    }

    fn finish(self, image: &'a [u8]) -> Plan<'a> {
        let section = |kind: u8| {
            let (start, end) = self.spans[usize::from(kind & 0x0F)];
            &image[start..end]
        };
        let mut marked = self.plan.marked;
        for (marked, states) in marked.iter_mut().zip(self.plan.module_states) {
            if *marked == 0 {
                *marked = ((1u64 << states) - 1) as u32;
            }
        }
        Plan {
            marked,
            module_moves: section(MODULE_MOVE).as_chunks().0,
            supervisor_moves: section(SUPERVISOR_MOVE).as_chunks().0,
            disablings: section(DISABLING).as_chunks().0,
            steps: section(STEP).as_chunks().0,
            ..self.plan
        }
    }
}
