//! Makes a case that shows a difference smaller while the difference stays.

use super::inputs::Case;
use super::pages::print_bytes;
use super::plans::{image_of, records_of, Records};
use super::schedule::Op;
use crate::plan;

/// Drops parts, many at once and then singly, as long as what is left still shows the difference. Says whether any went.
fn drop_parts<T: Clone>(parts: &mut Vec<T>, mut shows: impl FnMut(&[T]) -> bool) -> bool {
    let before = parts.len();
    let mut size = parts.len().div_ceil(2);
    while size > 0 {
        let mut at = 0;
        while at < parts.len() {
            let mut fewer = parts.clone();
            fewer.drain(at..(at + size).min(parts.len()));
            if shows(&fewer) {
                *parts = fewer;
            } else {
                at += size;
            }
        }
        size /= 2;
    }
    parts.len() < before
}

/// Drops records that are not needed, then whole events (3), supervisors (2) and modules (1).
fn shrink_image(image: &mut Vec<u8>, mut shows: impl FnMut(&[u8]) -> bool) -> bool {
    let mut records = records_of(image);
    let mut smaller = drop_parts(&mut records, |records| shows(&image_of(records)));
    for field in [3, 2, 1] {
        for gone in (0..64).rev() {
            if let Some(fewer) = without(&records, field, gone).filter(|fewer| shows(&image_of(fewer))) {
                records = fewer;
                smaller = true;
            }
        }
    }
    *image = image_of(&records);
    smaller
}

/// The records without one event (field 3 of the head), supervisor (2) or module (1), whose events then are module 0's; the numbers
/// above it move down.
fn without(records: &Records, field: usize, gone: u8) -> Option<Records> {
    let head = records.first().filter(|head| head.len() == 4)?;
    if gone >= head[field] {
        return None;
    }
    let mut out = Vec::new();
    for record in records {
        let mut record = record.clone();
        let kept = match (field, record[0]) {
            (_, plan::HEAD) => {
                record[field] -= 1;
                true
            }
            (3, plan::EVENT) => move_down(&mut record[1], gone),
            (3, plan::STEP) => step_without(&mut record, gone),
            (3, plan::MODULE_MOVE | plan::SUPERVISOR_MOVE) => move_down(&mut record[3], gone),
            (3, plan::SUPERVISOR) => {
                mask_without(&mut record, gone);
                true
            }
            (3, plan::DISABLING) => mask_without(&mut record, gone) != 0,
            (2, plan::SUPERVISOR | plan::SUPERVISOR_MOVE | plan::DISABLING) => move_down(&mut record[1], gone),
            (1, plan::MODULE | plan::MODULE_MOVE | plan::MARKING) => move_down(&mut record[1], gone),
            (1, plan::EVENT) => {
                if !move_down(&mut record[2], gone) {
                    record[2] = 0;
                }
                true
            }
            _ => true,
        };
        if kept {
            out.push(record);
        }
    }
    Some(out)
}

/// Moves a number above the gone one down. Says whether it is another one.
fn move_down(number: &mut u8, gone: u8) -> bool {
    let other = *number != gone;
    *number -= u8::from(*number > gone);
    other
}

/// A step without an event, neither as its own nor as a response. Says whether it stays.
fn step_without(record: &mut [u8], gone: u8) -> bool {
    let respond = record.len() == 12 && record[3] == plan::RESPOND;
    move_down(&mut record[1], gone) && (!respond || move_down(&mut record[11], gone))
}

/// Takes an event's bit out of the mask that ends a record, and gives the mask.
fn mask_without(record: &mut [u8], gone: u8) -> u64 {
    let Some(bytes) = record.last_chunk_mut() else {
        return 0;
    };
    let mask = u64::from_be_bytes(*bytes);
    let below = mask & ((1 << gone) - 1);
    let above = mask >> 1 & !((1 << gone) - 1);
    *bytes = (below | above).to_be_bytes();
    below | above
}

/// Sets bytes to 0 that need not be anything else.
fn clear_bytes(bytes: &mut [u8], mut shows: impl FnMut(&[u8]) -> bool) -> bool {
    let mut smaller = false;
    for at in 0..bytes.len() {
        let byte = std::mem::take(&mut bytes[at]);
        if byte != 0 && !shows(bytes) {
            bytes[at] = byte;
        } else {
            smaller |= byte != 0;
        }
    }
    smaller
}

/// Takes the message away if it is not needed, and the end of the buffer.
fn shorten(case: &mut Case, mut differs: impl FnMut(&Case) -> bool) -> bool {
    let before = case.clone();
    case.message.clear();
    if !differs(case) {
        case.message.clone_from(&before.message);
    }
    while let Some(last) = case.buffer.pop() {
        if !differs(case) {
            case.buffer.push(last);
            break;
        }
    }
    (case.message.len(), case.buffer.len()) != (before.message.len(), before.buffer.len())
}

/// Shrinks the plan, clears the state, and shortens and clears the buffer.
pub fn shrink_case(mut case: Case, mut differs: impl FnMut(&Case) -> bool) -> Case {
    loop {
        let whole = case.clone();
        let mut smaller = shrink_image(&mut case.image, |image| {
            differs(&Case {
                image: image.to_vec(),
                ..whole.clone()
            })
        });
        let whole = case.clone();
        smaller |= clear_bytes(&mut case.state, |state| {
            differs(&Case {
                state: state.to_vec(),
                ..whole.clone()
            })
        });
        smaller |= shorten(&mut case, &mut differs);
        let whole = case.clone();
        smaller |= clear_bytes(&mut case.buffer, |buffer| {
            differs(&Case {
                buffer: buffer.to_vec(),
                ..whole.clone()
            })
        });
        if !smaller {
            return case;
        }
    }
}

/// Drops records and cuts that are not needed. Where records go, the cuts stay, or come after each byte if that is what shows the difference.
pub fn shrink_pieces(mut image: Vec<u8>, mut cuts: Vec<usize>, mut differs: impl FnMut(&[u8], &[usize]) -> bool) -> (Vec<u8>, Vec<usize>) {
    loop {
        let before = cuts.clone();
        let mut choose = |image: &[u8]| {
            let kept = before.iter().map(|&cut| cut.min(image.len())).collect();
            let single = if image.len() <= 4_000 {
                (1..image.len()).collect()
            } else {
                Vec::new()
            };
            [kept, single].into_iter().find(|cuts| differs(image, cuts))
        };
        let mut smaller = shrink_image(&mut image, |image| choose(image).is_some());
        cuts = choose(&image).unwrap_or(before);
        smaller |= drop_parts(&mut cuts, |cuts| differs(&image, cuts));
        if !smaller {
            return (image, cuts);
        }
    }
}

/// Drops records that are not needed. The buffer stays by as much longer or shorter than the page set as it was.
pub fn shrink_pages(case: &Case, mut differs: impl FnMut(&Case) -> bool) -> Case {
    let spare = case.buffer.len() as isize - print_bytes(&case.image) as isize;
    let held = case.buffer.first().copied().unwrap_or(0);
    let with_image = |image: &[u8]| Case {
        image: image.to_vec(),
        buffer: vec![held; print_bytes(image).saturating_add_signed(spare)],
        ..case.clone()
    };
    let mut image = case.image.clone();
    while shrink_image(&mut image, |image| differs(&with_image(image))) {}
    with_image(&image)
}

/// Drops calls and records that are not needed, then whole events, supervisors and modules from both.
pub fn shrink_schedule(mut image: Vec<u8>, mut ops: Vec<Op>, mut differs: impl FnMut(&[u8], &[Op]) -> bool) -> (Vec<u8>, Vec<Op>) {
    loop {
        let mut smaller = drop_parts(&mut ops, |ops| differs(&image, ops));
        smaller |= shrink_image(&mut image, |image| differs(image, &ops));
        for (field, gone) in [3, 2, 1].into_iter().flat_map(|field| (0..64).rev().map(move |gone| (field, gone))) {
            let Some(fewer) = without(&records_of(&image), field, gone) else {
                continue;
            };
            let (fewer, fewer_ops) = (image_of(&fewer), ops_without(&ops, field, gone));
            if differs(&fewer, &fewer_ops) {
                (image, ops) = (fewer, fewer_ops);
                smaller = true;
            }
        }
        if !smaller {
            return (image, ops);
        }
    }
}

/// The calls of a schedule without an event (field 3), supervisor (2) or module (1), as `without` does it in a plan.
fn ops_without(ops: &[Op], field: usize, gone: u8) -> Vec<Op> {
    let mut out = Vec::new();
    for op in ops {
        let mut op = *op;
        let kept = match (field, &mut op) {
            (3, Op::Respond(_, event)) => move_down(event, gone),
            (2, Op::SupervisorStep(supervisor)) => move_down(supervisor, gone),
            (1, Op::ModuleStep(module) | Op::Respond(module, _) | Op::Tick(module, _, _)) => move_down(module, gone),
            _ => true,
        };
        if kept {
            out.push(op);
        }
    }
    out
}
