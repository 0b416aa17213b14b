//! A programme and a request on which ticks are run. Every tick is held to what document 01 says of
//! all ticks, whatever the programme and the state are.

use crate::lent::Lent;
use crate::refusal::too_short;
use crate::run::{hex, Difference};
use crate::subject::{Host, Rig, Tick, TickAnswer};

/// The obligation places that a tick needs.
pub const PLACES: usize = 1000;
pub const MOST_ENTRIES: usize = 8008;
/// Numbers that a step may change.
const MOST_CHANGED: usize = 12;

pub struct Bench<'r> {
    rig: &'r dyn Rig,
    programme: Lent<u64>,
    request: Lent<u8>,
}

/// What a tick leaves.
#[derive(Clone, PartialEq, Eq)]
pub struct Left {
    pub tick: Tick,
    pub state: Vec<u64>,
    pub out: Vec<u16>,
}

/// A library with what is asked of it once.
pub struct Machine<'a> {
    pub rig: &'a dyn Rig,
    pub host: Option<&'a dyn Host>,
    state_length: usize,
}

impl<'a> Machine<'a> {
    /// Finds the smallest length of a state that the library takes. Shorter ones are refused with 7.
    pub fn new(rig: &'a dyn Rig, host: Option<&'a dyn Host>) -> Result<Machine<'a>, Difference> {
        for state_length in 0..=256 + PLACES {
            let before = vec![7; state_length];
            let mut state = Lent::new(&before);
            match rig.fresh(state.part_mut()) {
                0 => return Ok(Machine { rig, host, state_length }),
                refused if refused == too_short().packed() && state.holds(&before) => {}
                other => return Err(format!(" a state of {state_length} numbers: {other:#x}")),
            }
        }
        Err(" no length up to 1,256 is enough for a state".to_string())
    }

    /// The fresh state; what the buffer held before does not count.
    pub fn fresh(&self, before: u64) -> Result<Vec<u64>, Difference> {
        let mut state = Lent::new(&vec![before; self.state_length]);
        let answer = self.rig.fresh(state.part_mut());
        let content = state.part().to_vec();
        if answer != 0 || !state.holds(&content) {
            return Err(format!(" no fresh state: {answer:#x}"));
        }
        Ok(content)
    }
}

impl<'r> Bench<'r> {
    pub fn new(rig: &'r dyn Rig, programme: &[u64], request: &[u8]) -> Bench<'r> {
        Bench { rig, programme: Lent::new(programme), request: Lent::new(request) }
    }

    pub fn entries(&self) -> usize {
        self.programme.part().len()
    }

    pub fn request(&self) -> &[u8] {
        self.request.part()
    }

    /// The piece of a sum that the next step carries out.
    pub fn next_piece(&self, state: &[u64]) -> Option<&'static str> {
        self.rig.piece(self.programme.part(), self.rig.place(state))
    }

    /// One tick from a state; the output holds `out` before.
    pub fn tick(&self, state: &[u64], budget: u64, out: &[u16]) -> Result<Left, Difference> {
        let (mut lent_state, mut lent_out) = (Lent::new(state), Lent::new(out));
        let programme = self.programme.clone();
        let request = self.request.clone();
        let tick = self.rig.tick(programme.part(), request.part(), lent_state.part_mut(), budget, lent_out.part_mut());
        let left = Left { tick, state: lent_state.part().to_vec(), out: lent_out.part().to_vec() };
        let outside = lent_state.holds(&left.state)
            && lent_out.holds(&left.out)
            && programme == self.programme
            && request == self.request;
        let fault =
            if outside { self.fault(&left, state, budget, out) } else { Some("memory that was not lent is changed") };
        match fault {
            None => Ok(left),
            Some(fault) => Err(self.difference(fault, state, budget, &left)),
        }
    }

    /// What a tick says that no tick may say.
    fn fault(&self, left: &Left, state: &[u64], budget: u64, out: &[u16]) -> Option<&'static str> {
        let steps = left.tick.steps;
        if steps > budget || steps > self.entries() as u64 {
            return Some("more steps than the budget or the entries");
        }
        if steps == 0 && left.state != state {
            return Some("the state changed in 0 steps");
        }
        let changed = left.state.iter().zip(state).filter(|(after, before)| after != before).count();
        if steps == 1 && changed > MOST_CHANGED {
            return Some("one step changed more than twelve numbers");
        }
        match left.tick.answer {
            TickAnswer::Running if steps != budget => Some("running, but not as many steps as the budget"),
            TickAnswer::Running if left.out != out => Some("running, but the output changed"),
            TickAnswer::Refused(_) if steps != 0 => Some("refused after steps"),
            TickAnswer::Refused(_) if left.out != out => Some("refused, but the output changed"),
            TickAnswer::Finished { decision, .. } if !(1..=4).contains(&decision) => Some("no decision"),
            TickAnswer::Finished { decision, code, .. } if (decision == 4) != (code != 0) || code > 2 => {
                Some("a code that the decision does not have, or none where it has one")
            }
            TickAnswer::Finished { count, .. } if count > PLACES => Some("more than 1,000 obligations"),
            TickAnswer::Finished { count, .. } if left.out[count..].iter().any(|&place| place != 0) => {
                Some("finished, but a place after the obligations is not zero")
            }
            _ => None,
        }
    }

    /// A difference, with all that is needed to see it again.
    pub fn difference(&self, fault: &str, state: &[u64], budget: u64, left: &Left) -> Difference {
        let words = |numbers: &[u64]| hex(&numbers.iter().flat_map(|number| number.to_be_bytes()).collect::<Vec<u8>>());
        format!(
            " {fault}\n programme {}\n request {}\n state {}\n budget {budget}\n got {:?}\n state after {}",
            words(self.programme.part()),
            hex(self.request.part()),
            words(state),
            left.tick,
            words(&left.state),
        )
    }
}
