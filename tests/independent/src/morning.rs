//! The morning of order 2: a list of Take and Bring events, served by one call.

use crate::desk::Action;

/// An event as one number is 65,536 * call + worker; call 0 is Take, 1 Bring.
const CALL: u32 = 65_536;

/// One call of a morning.
#[derive(Clone, Copy, Debug, PartialEq, Eq)]
pub struct Event {
    pub action: Action,
    pub worker: u16,
}

impl Event {
    pub fn number(self) -> u32 {
        let call = match self.action {
            Action::Take => 0,
            Action::Bring => CALL,
        };
        call + u32::from(self.worker)
    }

    /// The event of a number, if it is Take or Bring.
    pub fn of(number: u32) -> Option<Event> {
        let action = match number / CALL {
            0 => Action::Take,
            1 => Action::Bring,
            _ => return None,
        };
        Some(Event {
            action,
            worker: (number % CALL) as u16,
        })
    }
}

/// The events of a list by number, whose replies shall go to a row of `places`;
/// or the number of the refusal: 16 where the row has fewer places than events,
/// then 18 where an event is neither Take nor Bring.
pub fn admit(numbers: &[u32], places: usize) -> Result<Vec<Event>, u32> {
    if places < numbers.len() {
        return Err(16);
    }
    let events = numbers.iter().map(|&number| Event::of(number));
    events.collect::<Option<_>>().ok_or(18)
}
