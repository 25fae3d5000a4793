//! Operational procedures and water.

use crate::plan::{self, Plan};
use crate::state::{Own, Procedure, Water};

/// A flow reading: litres, or that no sensor is fitted.
#[derive(Clone, Copy, Debug)]
pub enum Reading {
    Litres(f64),
    NoSensor,
}

impl Reading {
    /// As the calls bring it: no sensor is fitted if `sensor` is 0.
    pub fn new(sensor: u8, litres: f64) -> Reading {
        if sensor == 0 {
            Reading::NoSensor
        } else {
            Reading::Litres(litres)
        }
    }

    /// Litres are from 0 to 64, a multiple of 1/8, not minus zero, infinite or NaN.
    pub fn is_good(self) -> bool {
        match self {
            Reading::NoSensor => true,
            Reading::Litres(litres) => litres.is_sign_positive() && (0.0..=64.0).contains(&litres) && plan::whole_eighths(litres),
        }
    }
}

/// The procedure of an event arriving at the step of an index; idle if there is none. A litres step begins with its total at 0.
pub fn arrive(plan: &Plan, event: u8, index: u8) -> Procedure {
    let Some(step) = plan.step(event, index) else {
        return Procedure::default();
    };
    let water = match step.operation {
        plan::WAIT_LITRES => Water {
            target: f64::from_bits(step.operand),
            total: 0.0,
        },
        _ => Water::default(),
    };
    Procedure {
        running: true,
        event,
        index,
        count: 0,
        water,
    }
}

/// A tick performs one step, or one tick of a wait. The reading is a good one.
pub fn tick(plan: &Plan, own: &mut Own, reading: Reading) {
    let procedure = &mut own.procedure;
    if !procedure.running {
        return;
    }
    let Some(step) = plan.step(procedure.event, procedure.index) else {
        return;
    };
    let ended = match step.operation {
        plan::OUTPUT_ON => {
            own.outputs |= 1 << step.operand;
            true
        }
        plan::OUTPUT_OFF => {
            own.outputs &= !(1 << step.operand);
            true
        }
        plan::WAIT_TICKS => {
            procedure.count += 1;
            u64::from(procedure.count) == step.operand
        }
        plan::WAIT_LITRES => {
            // Eighths below 2^53 add without rounding. Without a sensor the total stays.
            if let Reading::Litres(litres) = reading {
                procedure.water.total += litres;
            }
            procedure.water.total >= procedure.water.target
        }
        _ if own.queue_full() => false,
        _ => {
            own.push(step.operand as u8);
            true
        }
    };
    if ended {
        own.procedure = arrive(plan, own.procedure.event, own.procedure.index + 1);
    }
}
