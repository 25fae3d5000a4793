//! Messages between modules and supervisors.

use crate::answer::{refusal, Result};
use crate::plan::{contains, Plan};

pub const BID: u8 = 1;
pub const PERMIT: u8 = 2;
pub const RELEASE: u8 = 3;
/// The event of a release that carries none.
pub const NO_EVENT: u8 = 0xFF;
/// The longest message, its kind included.
pub const MESSAGE_BYTES: usize = 11;
pub const BID_BYTES: usize = 3;
pub const PERMIT_BYTES: usize = 11;
pub const RELEASE_BYTES: usize = 4;

#[derive(Clone, Copy, Debug, PartialEq, Eq)]
pub enum Message {
    Bid { module: u8, supervisor: u8 },
    Permit { supervisor: u8, module: u8, mask: u64 },
    Release { module: u8, supervisor: u8, event: u8 },
}

impl Message {
    /// Reads a message by shape alone: a known kind, its exact length.
    pub fn read(bytes: &[u8]) -> Result<Message> {
        match *bytes {
            [BID, module, supervisor] => Ok(Message::Bid { module, supervisor }),
            [PERMIT, supervisor, module, ref mask @ ..] => match mask.try_into() {
                Ok(mask) => Ok(Message::Permit {
                    supervisor,
                    module,
                    mask: u64::from_be_bytes(mask),
                }),
                Err(_) => Err(refusal(10)),
            },
            [RELEASE, module, supervisor, event] => Ok(Message::Release { module, supervisor, event }),
            _ => Err(refusal(10)),
        }
    }

    pub fn kind(&self) -> u8 {
        match self {
            Message::Bid { .. } => BID,
            Message::Permit { .. } => PERMIT,
            Message::Release { .. } => RELEASE,
        }
    }

    pub fn length(&self) -> usize {
        match self {
            Message::Bid { .. } => BID_BYTES,
            Message::Permit { .. } => PERMIT_BYTES,
            Message::Release { .. } => RELEASE_BYTES,
        }
    }

    /// Writes the message at the buffer's start and says how long it is; 15 if the buffer is shorter.
    pub fn write(&self, buffer: &mut [u8]) -> Result<usize> {
        let length = self.length();
        let out = buffer.get_mut(..length).ok_or(refusal(15))?;
        match *self {
            Message::Bid { module, supervisor } => out.copy_from_slice(&[BID, module, supervisor]),
            Message::Permit { supervisor, module, mask } => {
                out[..3].copy_from_slice(&[PERMIT, supervisor, module]);
                out[3..].copy_from_slice(&mask.to_be_bytes());
            }
            Message::Release { module, supervisor, event } => out.copy_from_slice(&[RELEASE, module, supervisor, event]),
        }
        Ok(length)
    }

    /// 11 is judged on what the message itself names: parties of the plan and neighbours of each other, and a release's event one of
    /// that module in that supervisor's alphabet.
    pub fn judge_names(&self, plan: &Plan) -> Result<()> {
        let (module, supervisor, event) = match *self {
            Message::Bid { module, supervisor } | Message::Permit { module, supervisor, .. } => (module, supervisor, NO_EVENT),
            Message::Release { module, supervisor, event } => (module, supervisor, event),
        };
        let parties = plan.has_module(module) && plan.has_supervisor(supervisor) && plan.are_neighbours(module, supervisor);
        if !parties {
            return Err(refusal(11));
        }
        let own = plan.module_events[module as usize] & plan.alphabet[supervisor as usize];
        if event != NO_EVENT && !contains(own, event) {
            return Err(refusal(11));
        }
        Ok(())
    }
}
