//! Ticks on damaged programmes and states: whatever they hold, every tick keeps to document 01.

use crate::bench::{Bench, Left, Machine, MOST_ENTRIES, PLACES};
use crate::compare_ticks::{programme_of, some_case};
use crate::random::Random;
use crate::record::{book_bytes, request_bytes};
use crate::refusal::{refuse, Part};
use crate::run::Difference;
use crate::subject::TickAnswer;
use crate::tally::{words, Tally, Wanted};

const DAMAGES: [&str; 15] = [
    "random entries",
    "sparse random entries",
    "flipped bits",
    "an entry replaced",
    "entries swapped",
    "entries dropped",
    "no entry",
    "8,008 entries",
    "8,009 entries",
    "state of another run",
    "a field of the state",
    "some bits of the state",
    "random state",
    "a piece of a sum changed",
    "a piece of a sum put elsewhere",
];
/// The last ones, which need a programme with sums.
const OF_PIECES: usize = 2;

/// Entries put where the run stands, which no step may take.
const OUTSIDE: [&str; 2] = ["an entry of no kind", "a damaged piece of a sum"];

pub fn wanted() -> Wanted {
    vec![
        ("damage", words(&DAMAGES)),
        ("outcome", words(&["finished at once", "finished", "refused at once", "refused later", "state refused"])),
        ("refused at the next step", words(&OUTSIDE)),
    ]
}

/// Runs a damaged programme, or from a damaged state.
pub fn case(machine: &Machine, random: &mut Random, tally: &mut Tally) -> Result<(), Difference> {
    let (mut programme, request) = sound_programme(machine, random)?;
    let mut state = sound_state(machine, random, &programme, &request)?;
    if random.chance(10) {
        return outside(machine, random, (programme, request, state), tally);
    }
    let piece = some_piece(machine, random, &programme);
    let how = DAMAGES[random.below(if piece.is_some() { DAMAGES.len() } else { DAMAGES.len() - OF_PIECES })];
    match how {
        "state of another run" => {
            let (other_programme, other_request) = sound_programme(machine, random)?;
            state = sound_state(machine, random, &other_programme, &other_request)?;
        }
        "a field of the state" => set_field(machine, random, &mut state),
        "some bits of the state" => set_bits(random, &mut state),
        "random state" => state.iter_mut().for_each(|number| *number = sparse(random)),
        _ => damage_programme(random, &mut programme, piece.unwrap_or(0), how),
    }
    // A place that is written with what it held keeps bits that no call sees, and a walk in single steps does not.
    machine.rig.cut(&mut state);
    tally.met("damage", how);
    Walk { bench: Bench::new(machine.rig, &programme, &request), start: state }.check(random, tally)
}

/// Puts an entry outside the layout where an unfinished run stands: its next step is refused.
fn outside(
    machine: &Machine,
    random: &mut Random,
    (mut programme, request, state): (Vec<u64>, Vec<u8>, Vec<u64>),
    tally: &mut Tally,
) -> Result<(), Difference> {
    let of_sum = random.below(2);
    let stands = machine.rig.place(&state);
    let running = Bench::new(machine.rig, &programme, &request).tick(&state, 0, &[0; PLACES])?.tick.answer;
    if running != TickAnswer::Running || stands >= programme.len() {
        return Ok(());
    }
    machine.rig.outside(random, of_sum == 1, &mut programme, stands);
    let walk = Walk { bench: Bench::new(machine.rig, &programme, &request), start: state };
    let budget = random.pick(&[1, 2, 300, u64::MAX]);
    let left = walk.bench.tick(&walk.start, budget, &[0; PLACES])?;
    tally.met("refused at the next step", OUTSIDE[of_sum]);
    walk.must_be_refused(&left, budget)
}

/// A translated programme and a request for its book.
fn sound_programme(machine: &Machine, random: &mut Random) -> Result<(Vec<u64>, Vec<u8>), Difference> {
    let (book, entries) = some_case(random);
    let programme = programme_of(machine.rig, random, &book_bytes(&book.records), &mut Tally::default())?;
    Ok((programme, request_bytes(&entries)))
}

/// The fresh state, or one in the middle or at the end of the run.
fn sound_state(
    machine: &Machine,
    random: &mut Random,
    programme: &[u64],
    request: &[u8],
) -> Result<Vec<u64>, Difference> {
    let fresh = machine.fresh(0)?;
    let some = random.below(programme.len()) as u64;
    let steps = random.pick(&[0, 1, 2, some]);
    let left = Bench::new(machine.rig, programme, request).tick(&fresh, steps, &[0; PLACES])?;
    Ok(left.state)
}

/// A number with few bits set, or with few bits clear.
fn sparse(random: &mut Random) -> u64 {
    let few = random.next() & random.next() & random.next() & random.next();
    random.pick(&[0, 1, few, few >> 32, !few, u64::MAX])
}

fn damage_programme(random: &mut Random, programme: &mut Vec<u64>, piece: usize, how: &str) {
    let (at, other) = (random.below(programme.len()), random.below(programme.len()));
    match how {
        "random entries" => programme.iter_mut().for_each(|entry| *entry = random.next()),
        "sparse random entries" => programme.iter_mut().for_each(|entry| *entry = sparse(random)),
        "flipped bits" => {
            for _ in 0..random.between(1, 3) {
                let place = random.below(programme.len());
                programme[place] ^= 1 << random.below(64);
            }
        }
        "an entry replaced" => programme[at] = sparse(random),
        "entries swapped" => programme.swap(at, other),
        "a piece of a sum put elsewhere" => programme.swap(piece, other),
        "a piece of a sum changed" => {
            let bits = random.pick(&[8, 16, 64]); // its lowest bits say which piece it is
            programme[piece] ^= 1 << random.below(bits);
        }
        "entries dropped" => {
            programme.drain(at.min(other)..at.max(other));
        }
        "no entry" => programme.clear(),
        "8,008 entries" => lengthen(random, programme, MOST_ENTRIES),
        _ => lengthen(random, programme, MOST_ENTRIES + 1),
    }
}

/// The place of some piece of a sum.
fn some_piece(machine: &Machine, random: &mut Random, programme: &[u64]) -> Option<usize> {
    let pieces: Vec<usize> = (0..programme.len()).filter(|&at| machine.rig.piece(programme, at).is_some()).collect();
    (!pieces.is_empty()).then(|| random.pick(&pieces))
}

/// Lengthens a programme with its own entries, or with random ones.
fn lengthen(random: &mut Random, programme: &mut Vec<u64>, length: usize) {
    let own = programme.clone();
    let repeat = random.chance(50);
    while programme.len() < length {
        let entry = if repeat { own[programme.len() % own.len()] } else { random.next() };
        programme.push(entry);
    }
}

/// Puts a value at or past a limit into a field of the published layout.
fn set_field(machine: &Machine, random: &mut Random, state: &mut [u64]) {
    let fields = machine.rig.fields();
    if fields.is_empty() {
        return set_bits(random, state);
    }
    let field = fields[random.below(fields.len())];
    let values = [0, 1, field.most.saturating_sub(1), field.most, field.most.saturating_add(1), u64::MAX];
    replace(&mut state[field.number], field.low, field.width, random.pick(&values));
}

/// Puts some value into some bits of a number, most often of the first.
fn set_bits(random: &mut Random, state: &mut [u64]) {
    let number = if random.chance(60) { 0 } else { random.below(state.len()) };
    let low = random.below(64) as u32;
    let width = random.between(1, 64 - low as usize) as u32;
    let (now, some) = (state[number] >> low, random.next());
    let value = random.pick(&[0, u64::MAX, now.wrapping_add(1), now.wrapping_sub(1), some]);
    replace(&mut state[number], low, width, value);
}

fn replace(number: &mut u64, low: u32, width: u32, value: u64) {
    let mask = (u64::MAX >> (64 - width)) << low;
    *number = *number & !mask | (value << low) & mask;
}

/// A walk in single steps from a state, against ticks of many steps.
struct Walk<'a> {
    bench: Bench<'a>,
    start: Vec<u64>,
}

impl Walk<'_> {
    fn check(&self, random: &mut Random, tally: &mut Tally) -> Result<(), Difference> {
        let junk: Vec<u16> = (0..PLACES).map(|_| random.next() as u16).collect();
        let waiting = self.bench.tick(&self.start, 0, &junk)?;
        if let TickAnswer::Refused(_) = waiting.tick.answer {
            tally.met("outcome", "state refused");
            let budget = random.pick(&[1, 2, 300, u64::MAX]);
            let again = self.bench.tick(&self.start, budget, &junk)?;
            return self.must_be_refused(&waiting, 0).and(self.must_be_refused(&again, budget));
        }
        let (steps, end) = self.single_steps(&junk)?;
        let outcome = match (end.tick.answer, steps) {
            (TickAnswer::Refused(_), 0) => "refused at once",
            (TickAnswer::Refused(_), _) => "refused later",
            (_, 0) => "finished at once",
            _ => "finished",
        };
        tally.met("outcome", outcome);
        if outcome.starts_with("refused") {
            self.must_be_refused(&end, 1)?;
            self.refused_end(random, steps, &end, &junk)
        } else {
            self.finished_end(random, steps, &end, &junk)
        }
    }

    fn must_be_refused(&self, left: &Left, budget: u64) -> Result<(), Difference> {
        if left.tick.answer == TickAnswer::Refused(refuse(8, Part::Programme)) {
            return Ok(());
        }
        Err(self.bench.difference("expected refusal 8", &self.start, budget, left))
    }

    /// Ticks of one step until one finishes or is refused: the steps taken, and what the last tick left.
    fn single_steps(&self, junk: &[u16]) -> Result<(u64, Left), Difference> {
        let mut state = self.start.clone();
        for steps in 0..=self.bench.entries() as u64 {
            let left = self.bench.tick(&state, 1, junk)?;
            if left.tick.answer != TickAnswer::Running {
                return Ok((steps + left.tick.steps, left));
            }
            if steps == self.bench.entries() as u64 {
                return Err(self.bench.difference("more steps than entries", &state, 1, &left));
            }
            state = left.state;
        }
        unreachable!("the last round returns")
    }

    /// The run meets 8 after `steps`: a larger budget is refused, this one is not.
    fn refused_end(&self, random: &mut Random, steps: u64, end: &Left, junk: &[u16]) -> Result<(), Difference> {
        let larger = random.pick(&[steps + 1, steps + 2, u64::MAX]);
        self.must_be_refused(&self.bench.tick(&self.start, larger, junk)?, larger)?;
        let before = self.bench.tick(&self.start, steps, junk)?;
        if before.tick.answer != TickAnswer::Running || before.state != end.state {
            return Err(self.bench.difference("not the single steps", &self.start, steps, &before));
        }
        Ok(())
    }

    /// The run ends after `steps`: any larger budget gives the same end, and the end stays.
    fn finished_end(&self, random: &mut Random, steps: u64, end: &Left, junk: &[u16]) -> Result<(), Difference> {
        let budget = random.pick(&[steps, steps + 1, u64::MAX]);
        let whole = self.bench.tick(&self.start, budget, junk)?;
        let same = |left: &Left| left.tick.answer == end.tick.answer && left.state == end.state && left.out == end.out;
        if whole.tick.steps != steps || !same(&whole) {
            return Err(self.bench.difference("not the single steps", &self.start, budget, &whole));
        }
        let again = self.bench.tick(&end.state, budget, junk)?;
        if again.tick.steps != 0 || !same(&again) {
            return Err(self.bench.difference("a finished run answers something else", &end.state, budget, &again));
        }
        Ok(())
    }
}
