//! The check of a plan image that comes in pieces, cut anywhere, over the state's lent bytes.
//!
//! Records that are whole in a piece are judged where they stand; only one that is cut is gathered in the state. After a refusal bytes are
//! only counted, since an image that turns out too long is refused for that. Bytes that no call has left, but that stand for a state, are
//! gone on from all the same, and nothing is taken for granted of what they hold; what they come to is the definition's, since no paper
//! says it.

use crate::answer::{refusal, Answer, Refusal, Result, DONE};
use crate::plan::{
    body_length, class_in_range, contains, counts_in_range, demand, module_states_in_range, step_in_range, supervisor_states_in_range,
    Verdict, DISABLING, END, EVENT, HEAD, IMAGE_LIMIT, MARKING, MODULE, MODULE_MOVE, RECORD_BYTES, RESPOND, STEP, SUPERVISOR,
    SUPERVISOR_MOVE,
};

/// The bytes of a state: how far the check has come, then what it remembers of the records before.
pub const CHECK_BYTES: usize = 495;
const NUMBER_BYTES: usize = 11;
const BEGUN: usize = NUMBER_BYTES + RECORD_BYTES;

/// Writes the starting state.
pub fn start(state: &mut [u8]) -> Result<Answer> {
    let state = state.get_mut(..CHECK_BYTES).ok_or(refusal(15))?;
    state.fill(0);
    Ok(Answer::new(DONE, 0, CHECK_BYTES))
}

/// Takes the next piece.
pub fn piece(state: &mut [u8], piece: &[u8]) -> Result<Answer> {
    let state: &mut [u8; CHECK_BYTES] = state.try_into().map_err(|_| refusal(9))?;
    let numbers = Numbers::read(state).ok_or(refusal(9))?;
    if !piece.is_empty() {
        let mut rest = &mut state[..];
        let lent = next(&mut rest);
        let cut = next(&mut rest);
        Progress {
            numbers,
            cut,
            context: rest,
        }
        .take(piece)
        .write(lent);
    }
    Ok(Answer::done())
}

/// The verdict on the bytes taken so far.
pub fn answer(state: &[u8]) -> Result<Answer> {
    let state = state.try_into().map_err(|_| refusal(9))?;
    let numbers = Numbers::read(state).ok_or(refusal(9))?;
    match numbers.stage {
        _ if numbers.taken > IMAGE_LIMIT as u32 => Err(refusal(1)),
        Stage::Open => Err(Refusal {
            number: 3,
            offset: numbers.begin(),
        }),
        Stage::Ended => Ok(Answer::done()),
        Stage::Faulty(refusal) => Err(refusal),
    }
}

/// Records are read, a faultless end record was read, or one was refused.
#[derive(Clone, Copy)]
enum Stage {
    Open,
    Ended,
    Faulty(Refusal),
}

/// How far the check has come.
#[derive(Clone, Copy)]
struct Numbers {
    stage: Stage,
    /// How many bytes were taken in all.
    taken: u32,
    /// How many bytes there are of the record that has begun.
    held: u8,
}

impl Numbers {
    /// None if the bytes stand for no state.
    fn read(state: &[u8; CHECK_BYTES]) -> Option<Numbers> {
        let [stage, number, a, b, c, d, e, f, g, h, held, ..] = *state;
        let offset = u32::from_be_bytes([a, b, c, d]);
        let taken = u32::from_be_bytes([e, f, g, h]);
        let stage = match (stage, number, offset) {
            (0, 0, 0) => Stage::Open,
            (1, 0, 0) => Stage::Ended,
            (2, 2..=8, _) => Stage::Faulty(Refusal { number, offset }),
            _ => return None,
        };
        (state[BEGUN] <= 1).then_some(Numbers { stage, taken, held })
    }

    fn write(self, lent: &mut [u8; NUMBER_BYTES]) {
        let (stage, refusal) = match self.stage {
            Stage::Open => (0, refusal(0)),
            Stage::Ended => (1, refusal(0)),
            Stage::Faulty(refusal) => (2, refusal),
        };
        lent[0] = stage;
        lent[1] = refusal.number;
        lent[2..6].copy_from_slice(&refusal.offset.to_be_bytes());
        lent[6..10].copy_from_slice(&self.taken.to_be_bytes());
        lent[10] = self.held;
    }

    /// Where the record that has begun does so, or the next one will.
    fn begin(&self) -> u32 {
        self.taken.saturating_sub(u32::from(self.held))
    }
}

/// A state into which a piece is taken.
struct Progress<'a> {
    numbers: Numbers,
    /// The bytes of the record that has begun.
    cut: &'a mut [u8; RECORD_BYTES],
    context: &'a mut [u8],
}

impl Progress<'_> {
    /// Takes a piece that is not empty.
    fn take(mut self, piece: &[u8]) -> Numbers {
        let taken = self.numbers.taken as usize + piece.len();
        if taken > IMAGE_LIMIT {
            self.context.fill(0);
            self.stand(Stage::Open);
            self.numbers.taken = IMAGE_LIMIT as u32 + 1;
            return self.numbers;
        }
        match self.numbers.stage {
            Stage::Open => self.read_on(piece),
            Stage::Ended => self.stand(after_end(self.numbers.taken)),
            Stage::Faulty(_) => self.stand(self.numbers.stage),
        }
        self.numbers.taken = taken as u32;
        self.numbers
    }

    /// Between two records, or past the last one.
    fn stand(&mut self, stage: Stage) {
        self.numbers.stage = stage;
        self.numbers.held = 0;
        *self.cut = [0; RECORD_BYTES];
    }

    /// Goes on with the record that has begun.
    fn hold(&mut self, bytes: &[u8]) {
        let free = &mut self.cut[usize::from(self.numbers.held)..];
        free.iter_mut().zip(bytes).for_each(|(place, byte)| *place = *byte);
        self.numbers.held += bytes.len() as u8;
    }

    /// Reads records, the one that has begun first.
    fn read_on(&mut self, piece: &[u8]) {
        let Numbers { taken, held, .. } = self.numbers;
        let begin = self.numbers.begin();
        let held = usize::from(held);
        let kind = if held == 0 { piece[0] } else { self.cut[0] };
        let Some(body) = body_length(kind) else {
            return self.stand(faulty(2, begin));
        };
        // A state that no call left may hold more than its record has; the record is then judged at the next byte.
        let missing = (1 + body).saturating_sub(held).max(1);
        if piece.len() < missing {
            return self.hold(piece);
        }
        let mut rest = piece;
        let mut stage = Stage::Open;
        if held > 0 && held <= body {
            self.hold(&piece[..missing]);
        }
        let mut context = Context::read(self.context);
        if held > 0 {
            (stage, _) = context.records(&self.cut[..=body], begin);
            rest = &piece[missing..];
        }
        let offset = taken + (piece.len() - rest.len()) as u32;
        match stage {
            Stage::Open => (stage, rest) = context.records(rest, offset),
            Stage::Ended if !rest.is_empty() => stage = after_end(offset),
            Stage::Ended | Stage::Faulty(_) => {}
        }
        context.write();
        self.stand(stage);
        if let Stage::Open = stage {
            self.hold(rest);
        }
    }
}

fn faulty(number: u8, offset: u32) -> Stage {
    Stage::Faulty(Refusal { number, offset })
}

/// A byte after the end record is 4 at its own offset and is not read as a kind.
fn after_end(offset: u32) -> Stage {
    faulty(4, offset)
}

/// What a record is until it is whole.
const CUT: u8 = 3;

/// What the check remembers of the records before. Nothing changes if a record is refused. Tables stay where they are lent.
struct Context<'a> {
    /// Whether a record has come, and the last one's kind and key.
    begun: bool,
    last: u32,
    /// The head's counts.
    counts: [u8; 3],
    /// Masks of those declared so far.
    events: u64,
    controllable: u64,
    modules: u64,
    supervisors: u64,
    /// The module of each event.
    owner: &'a mut [u8; 64],
    /// How many steps each event has.
    steps: &'a mut [u8; 64],
    module_states: &'a mut [u8; 16],
    supervisor_states: &'a mut [u8; 32],
    alphabet: &'a mut [[u8; 8]],
    /// Where the numbers are written back.
    lent: Lent<'a>,
}

struct Lent<'a> {
    begun: &'a mut [u8; 1],
    last: &'a mut [u8; 4],
    counts: &'a mut [u8; 3],
    events: &'a mut [u8; 8],
    controllable: &'a mut [u8; 8],
    modules: &'a mut [u8; 8],
    supervisors: &'a mut [u8; 8],
}

/// The next bytes of a state.
fn next<'a, const N: usize>(rest: &mut &'a mut [u8]) -> &'a mut [u8; N] {
    let (first, behind) = std::mem::take(rest).split_first_chunk_mut().expect("the bytes of a state");
    *rest = behind;
    first
}

/// An entry of a table, 0 past its end.
fn entry(table: &[u8], at: u8) -> u8 {
    table.get(usize::from(at)).copied().unwrap_or(0)
}

fn set_entry<T>(table: &mut [T], at: u8, value: T) {
    if let Some(entry) = table.get_mut(usize::from(at)) {
        *entry = value;
    }
}

/// A mask with a bit set or cleared, if that is below a limit.
fn with_bit(mask: u64, limit: u8, at: u8, on: bool) -> u64 {
    if at < limit {
        mask & !(1 << at) | u64::from(on) << at
    } else {
        mask
    }
}

/// Whether every number below a count is in a mask.
fn all_below(mask: u64, count: u8) -> bool {
    mask.trailing_ones() >= u32::from(count)
}

/// Whether a mask has no bits but those of another.
fn within(mask: u64, other: u64) -> bool {
    mask & !other == 0
}

impl<'a> Context<'a> {
    fn read(mut bytes: &'a mut [u8]) -> Self {
        let begun = next(&mut bytes);
        let last = next(&mut bytes);
        let counts = next(&mut bytes);
        let events = next(&mut bytes);
        let controllable = next(&mut bytes);
        let owner = next(&mut bytes);
        let steps = next(&mut bytes);
        let modules = next(&mut bytes);
        let module_states = next(&mut bytes);
        let supervisors = next(&mut bytes);
        let supervisor_states = next(&mut bytes);
        Context {
            begun: *begun == [1],
            last: u32::from_be_bytes(*last),
            counts: *counts,
            events: u64::from_be_bytes(*events),
            controllable: u64::from_be_bytes(*controllable),
            modules: u64::from_be_bytes(*modules),
            supervisors: u64::from_be_bytes(*supervisors),
            owner,
            steps,
            module_states,
            supervisor_states,
            alphabet: bytes.as_chunks_mut().0,
            lent: Lent {
                begun,
                last,
                counts,
                events,
                controllable,
                modules,
                supervisors,
            },
        }
    }

    fn write(self) {
        *self.lent.begun = [u8::from(self.begun)];
        *self.lent.last = self.last.to_be_bytes();
        *self.lent.counts = self.counts;
        *self.lent.events = self.events.to_be_bytes();
        *self.lent.controllable = self.controllable.to_be_bytes();
        *self.lent.modules = self.modules.to_be_bytes();
        *self.lent.supervisors = self.supervisors.to_be_bytes();
    }

    /// Reads the whole records of a piece that begins at an offset; what is left is one that is cut.
    fn records<'p>(&mut self, piece: &'p [u8], offset: u32) -> (Stage, &'p [u8]) {
        let mut rest = piece;
        while let Some(&kind) = rest.first() {
            let at = offset + (piece.len() - rest.len()) as u32;
            match self.record(rest) {
                Ok(length) => rest = &rest[length..],
                Err(CUT) => break,
                Err(number) => return (faulty(number, at), rest),
            }
            if kind == END {
                let stage = if rest.is_empty() { Stage::Ended } else { after_end(at + 1) };
                return (stage, rest);
            }
        }
        (Stage::Open, rest)
    }

    /// Judges and takes the first record of what is left, and gives its length.
    fn record(&mut self, rest: &[u8]) -> core::result::Result<usize, u8> {
        match *rest {
            [MODULE_MOVE, module, from, event, to, ..] => self.module_move(module, from, event, to)?,
            [SUPERVISOR_MOVE, supervisor, from, event, to, ..] => self.supervisor_move(supervisor, from, event, to)?,
            [DISABLING, supervisor, state, a, b, c, d, e, f, g, h, ..] => {
                self.disabling(supervisor, state, u64::from_be_bytes([a, b, c, d, e, f, g, h]))?;
            }
            [STEP, event, index, operation, a, b, c, d, e, f, g, h, ..] => {
                self.step(event, index, operation, u64::from_be_bytes([a, b, c, d, e, f, g, h]))?;
            }
            [MARKING, module, state, ..] => self.marking(module, state)?,
            [HEAD, modules, supervisors, events, ..] => self.head(modules, supervisors, events)?,
            [EVENT, number, module, class, ..] => self.event(number, module, class)?,
            [MODULE, number, states, initial, ..] => self.module(number, states, initial)?,
            [SUPERVISOR, number, states, initial, a, b, c, d, e, f, g, h, ..] => {
                self.supervisor(number, states, initial, u64::from_be_bytes([a, b, c, d, e, f, g, h]))?;
            }
            [END, ..] => self.end()?,
            [kind, ..] if body_length(kind).is_none() => return Err(2),
            _ => return Err(CUT),
        }
        Ok(1 + body_length(rest[0]).unwrap_or(0))
    }

    /// The head comes first; records ascend by kind, then strictly by key.
    fn ascends(&self, key: u32) -> Verdict {
        let head = key == u32::from_be_bytes([HEAD, 0, 0, 0]);
        demand(if self.begun { self.last < key } else { head }, 4)
    }

    /// The record of this key is faultless.
    fn accept(&mut self, key: u32) -> Verdict {
        self.begun = true;
        self.last = key;
        Ok(())
    }

    fn knows_event(&self, event: u8) -> bool {
        event < self.counts[2] && contains(self.events, event)
    }

    fn knows_module(&self, module: u8) -> bool {
        module < self.counts[0] && contains(self.modules, module)
    }

    fn knows_supervisor(&self, supervisor: u8) -> bool {
        supervisor < self.counts[1] && contains(self.supervisors, supervisor)
    }

    fn alphabet(&self, supervisor: u8) -> u64 {
        let mask = self.alphabet.get(usize::from(supervisor));
        mask.map_or(0, |bytes| u64::from_be_bytes(*bytes))
    }

    fn head(&mut self, modules: u8, supervisors: u8, events: u8) -> Verdict {
        let key = u32::from_be_bytes([HEAD, 0, 0, 0]);
        self.ascends(key)?;
        demand(counts_in_range(modules, supervisors, events), 5)?;
        self.counts = [modules, supervisors, events];
        self.accept(key)
    }

    fn event(&mut self, number: u8, module: u8, class: u8) -> Verdict {
        let key = u32::from_be_bytes([EVENT, number, 0, 0]);
        self.ascends(key)?;
        demand(class_in_range(class), 5)?;
        demand(number < self.counts[2] && module < self.counts[0], 6)?;
        self.events = with_bit(self.events, 64, number, true);
        self.controllable = with_bit(self.controllable, 64, number, class == 1);
        set_entry(self.owner, number, module);
        self.accept(key)
    }

    fn module(&mut self, number: u8, states: u8, initial: u8) -> Verdict {
        let key = u32::from_be_bytes([MODULE, number, 0, 0]);
        self.ascends(key)?;
        demand(module_states_in_range(states), 5)?;
        demand(number < self.counts[0] && initial < states, 6)?;
        self.modules = with_bit(self.modules, 16, number, true);
        set_entry(self.module_states, number, states);
        self.accept(key)
    }

    fn module_move(&mut self, module: u8, from: u8, event: u8, to: u8) -> Verdict {
        let key = u32::from_be_bytes([MODULE_MOVE, module, from, event]);
        self.ascends(key)?;
        demand(self.knows_module(module) && self.knows_event(event), 6)?;
        let states = entry(self.module_states, module);
        demand(from < states && to < states, 6)?;
        demand(entry(self.owner, event) == module, 7)?;
        self.accept(key)
    }

    fn supervisor(&mut self, number: u8, states: u8, initial: u8, alphabet: u64) -> Verdict {
        let key = u32::from_be_bytes([SUPERVISOR, number, 0, 0]);
        self.ascends(key)?;
        demand(supervisor_states_in_range(states), 5)?;
        demand(number < self.counts[1] && initial < states, 6)?;
        demand(within(alphabet, self.events), 6)?;
        self.supervisors = with_bit(self.supervisors, 32, number, true);
        set_entry(self.supervisor_states, number, states);
        set_entry(self.alphabet, number, alphabet.to_be_bytes());
        self.accept(key)
    }

    fn supervisor_move(&mut self, supervisor: u8, from: u8, event: u8, to: u8) -> Verdict {
        let key = u32::from_be_bytes([SUPERVISOR_MOVE, supervisor, from, event]);
        self.ascends(key)?;
        demand(self.knows_supervisor(supervisor) && self.knows_event(event), 6)?;
        let states = entry(self.supervisor_states, supervisor);
        demand(from < states && to < states, 6)?;
        demand(contains(self.alphabet(supervisor), event), 7)?;
        self.accept(key)
    }

    fn disabling(&mut self, supervisor: u8, state: u8, mask: u64) -> Verdict {
        let key = u32::from_be_bytes([DISABLING, supervisor, state, 0]);
        self.ascends(key)?;
        demand(mask != 0, 5)?;
        demand(self.knows_supervisor(supervisor), 6)?;
        demand(state < entry(self.supervisor_states, supervisor), 6)?;
        demand(within(mask, self.events), 6)?;
        demand(within(mask, self.controllable & self.alphabet(supervisor)), 7)?;
        self.accept(key)
    }

    fn step(&mut self, event: u8, index: u8, operation: u8, operand: u64) -> Verdict {
        let key = u32::from_be_bytes([STEP, event, index, 0]);
        self.ascends(key)?;
        demand(index == entry(self.steps, event), 4)?;
        demand(step_in_range(index, operation, operand), 5)?;
        demand(self.knows_event(event), 6)?;
        if operation == RESPOND {
            demand(operand < 64 && self.knows_event(operand as u8), 6)?;
        }
        demand(contains(self.controllable, event), 7)?;
        if operation == RESPOND {
            let response = operand as u8;
            demand(!contains(self.controllable, response), 7)?;
            demand(entry(self.owner, response) == entry(self.owner, event), 7)?;
        }
        set_entry(self.steps, event, index + 1);
        self.accept(key)
    }

    fn marking(&mut self, module: u8, state: u8) -> Verdict {
        let key = u32::from_be_bytes([MARKING, module, state, 0]);
        self.ascends(key)?;
        demand(self.knows_module(module), 6)?;
        demand(state < entry(self.module_states, module), 6)?;
        self.accept(key)
    }

    fn end(&mut self) -> Verdict {
        let key = u32::from_be_bytes([END, 0, 0, 0]);
        self.ascends(key)?;
        let [modules, supervisors, events] = self.counts;
        let whole = all_below(self.modules, modules) && all_below(self.supervisors, supervisors) && all_below(self.events, events);
        demand(whole, 8)?;
        self.accept(key)
    }
}
