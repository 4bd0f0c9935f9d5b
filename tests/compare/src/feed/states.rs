//! States that no call handed out. The second program keeps none as numbers, so these are checked
//! against what the interface promises for every state: a broken one is answered with 2 at 0 by
//! both calls and nothing changes; any other is answered as if it had been handed out. The pair of
//! every answer is the one that stands in the state, with a record more after a record.

use super::{left, EXCESS};
use crate::ffi::feed::{self, State, MORE, STATE_LEN};
use crate::ffi::{Answer, Pair, END};
use crate::generate::{self, any_buffer, Splitting};
use crate::rng::Rng;
use crate::twin::Twin;
use crate::Outcome;
use reference::refusal::{BAD_BUFFER, BAD_PLACE, BAD_SUM, HOLLOW, RESERVED, TORN};
use reference::segment::{HEADER, PAGE, RECORD_MAX, SEGMENT_MAX};

/// Handed-out states that others are made from, and how many from each.
const SAMPLES: u64 = 1_500;
const EACH: u64 = 40;

pub fn check_states(rng: &mut Rng) -> Outcome {
    let mut trial = Trial::new(rng);
    for _ in 0..SAMPLES {
        let handed_out = trial.hand_out(rng)?;
        for _ in 0..EACH {
            let state = any_state(rng, &handed_out);
            trial
                .check(rng, state)
                .map_err(|why| format!("state {state:?}: {why}"))?;
        }
    }
    if trial.broken == 0 || trial.broken == SAMPLES * EACH {
        return Err(format!("{} broken states", trial.broken));
    }
    Ok(trial.cases)
}

/// Numbers at the limits of what a state can hold, and some of no meaning.
const NUMBERS: [u64; 16] = [
    0,
    1,
    2,
    7,
    8,
    24,
    PAGE as u64 - 1,
    PAGE as u64,
    PAGE as u64 + 1,
    RECORD_MAX as u64,
    RECORD_MAX as u64 + 1,
    (SEGMENT_MAX - PAGE) as u64,
    SEGMENT_MAX as u64,
    SEGMENT_MAX as u64 + 1,
    1 << 63,
    u64::MAX,
];

/// A handed-out state with one number changed or a few; or any numbers.
fn any_state(rng: &mut Rng, handed_out: &State) -> State {
    let mut state = *handed_out;
    let changes = match rng.below(8) {
        0 => return state.map(|_| rng.number()),
        1 => return state.map(|_| rng.pick(&NUMBERS)),
        2 => 1 + rng.below(STATE_LEN),
        3 => 2,
        _ => 1,
    };
    for _ in 0..changes {
        let number = &mut state[rng.below(STATE_LEN)];
        *number = match rng.below(6) {
            0 => rng.number(),
            1 => rng.pick(&NUMBERS),
            2 => number.wrapping_add(1),
            3 => number.wrapping_sub(1),
            4 => *number ^ 1 << rng.below(64),
            _ => rng.below(100) as u64,
        };
    }
    state
}

/// What is lent. The archive gets the one half of each twin; the other says what was there before.
struct Trial {
    page: Twin,
    /// The length of the page that was fed last.
    fed: usize,
    buffer: Twin,
    broken: u64,
    cases: u64,
}

impl Trial {
    fn new(rng: &mut Rng) -> Trial {
        Trial {
            page: Twin::new(rng, PAGE + EXCESS),
            fed: 0,
            buffer: Twin::new(rng, RECORD_MAX + 64),
            broken: 0,
            cases: 0,
        }
    }

    /// A state after some calls over a segment; the page that it is about is in `page`.
    fn hand_out(&mut self, rng: &mut Rng) -> Result<State, String> {
        let mut bytes = any_bytes(rng);
        let version = generate::any_version(rng);
        generate::resum(version, &mut bytes);
        let mut pages = bytes.chunks(PAGE);
        let mut state = feed::start(version.number() as u32).out;
        self.fed = 0;
        for _ in 0..rng.below(16) {
            if self.read(&mut state, self.fed, RECORD_MAX)?.number == MORE && !rng.once_in(8) {
                let page = pages.next().unwrap_or(&[]);
                self.page.put(page);
                self.fed = page.len();
                self.feed(&mut state, self.fed)?;
            }
        }
        Ok(state)
    }

    fn check(&mut self, rng: &mut Rng, state: State) -> Result<(), String> {
        let broken = self.is_broken(state)?;
        self.broken += u64::from(broken);
        self.check_feed(rng, state, broken)?;
        self.check_reads(rng, state, broken)
    }

    /// Too long a page is always refused, and only a broken state answers it with 2.
    fn is_broken(&mut self, mut state: State) -> Result<bool, String> {
        match self.feed(&mut state, PAGE + EXCESS)?.number {
            0 => Err("too long a page was taken".to_string()),
            number => Ok(number == BAD_PLACE),
        }
    }

    /// What a feed hands out is never broken.
    fn check_feed(&mut self, rng: &mut Rng, mut state: State, broken: bool) -> Result<(), String> {
        let length = match rng.below(3) {
            0 => 0,
            1 => rng.below(PAGE),
            _ => PAGE,
        };
        let number = self.feed(&mut state, length)?.number;
        if broken && number != BAD_PLACE {
            return Err(format!("broken, but a feed answered {number}"));
        }
        if number == 0 && self.is_broken(state)? {
            return Err(format!("a feed handed out {state:?}"));
        }
        Ok(())
    }

    /// Reads until there is no record, which then is answered again; a fragment has 7 bytes or
    /// more, so a page has no more records than that.
    fn check_reads(&mut self, rng: &mut Rng, mut state: State, broken: bool) -> Result<(), String> {
        let lent = match rng.below(4) {
            0 => rng.below(PAGE + EXCESS),
            _ => self.fed,
        };
        let room = match rng.below(4) {
            0 => any_buffer(rng),
            _ => RECORD_MAX,
        };
        for _ in 0..=PAGE / HEADER {
            let got = self.read(&mut state, lent, room)?;
            if broken != (got.number == BAD_PLACE) {
                return Err(format!("broken: {broken}, but a read answered {got:?}"));
            }
            if got.number != 0 {
                return self.check_again(state, lent, room, got);
            }
        }
        Err("records without end".to_string())
    }

    fn check_again(
        &mut self,
        state: State,
        lent: usize,
        room: usize,
        last: Answer<5>,
    ) -> Result<(), String> {
        let mut after = state;
        let got = self.read(&mut after, lent, room)?;
        if got != last {
            return Err(format!("answered {last:?} and then {got:?}"));
        }
        left(true, &state, &after)
    }

    // ---- The calls ----

    /// The pair that stands in a state, as the refusal of too long a page tells it.
    fn pair_in(&mut self, state: &State) -> Result<Pair, String> {
        let (page, _) = self.page.both(0..PAGE + EXCESS);
        let [_, records, offset] = feed::feed_page(&mut state.clone(), page).out;
        match state.contains(&records) && state.contains(&offset) {
            true => Ok([records, offset]),
            false => Err(format!("the pair {records}, {offset} is not in the state")),
        }
    }

    fn feed(&mut self, state: &mut State, length: usize) -> Result<Answer<3>, String> {
        self.cases += 1;
        let before = *state;
        let pair = self.pair_in(state)?;
        let (page, _) = self.page.both(0..length);
        let got = feed::feed_page(state, page);
        let good = match got.number {
            0 | BAD_BUFFER | BAD_PLACE => got.out[0] == 0,
            number => is_standing(number),
        };
        if !good || got.out[1..] != pair || got.beside {
            return Err(format!("feed of {length} bytes: {got:?}"));
        }
        self.compare(0)?;
        left(got.number != 0, &before, state)
            .map_err(|why| format!("feed of {length} bytes, {got:?}: {why}"))?;
        Ok(got)
    }

    fn read(&mut self, state: &mut State, lent: usize, room: usize) -> Result<Answer<5>, String> {
        self.cases += 1;
        let before = *state;
        let mut pair = self.pair_in(state)?;
        let (page, _) = self.page.both(0..lent);
        let (buffer, _) = self.buffer.both(0..room);
        let got = feed::read(state, page, buffer);
        let refused = got.number == BAD_BUFFER || got.number == BAD_PLACE;
        if got.number == 0 {
            pair = [pair[0].wrapping_add(1), got.out[2]];
        }
        let good = match got.number {
            0 => got.out[1] <= RECORD_MAX as u64,
            BAD_BUFFER | BAD_PLACE | MORE | END => got.out[..3] == [0; 3],
            number => got.out[1..3] == [0; 2] && (number == TORN || is_standing(number)),
        };
        if !good || got.out[3..] != pair || got.beside || (room < RECORD_MAX && !refused) {
            return Err(format!("read with {lent} bytes into {room}: {got:?}"));
        }
        self.compare(if refused { 0 } else { RECORD_MAX })?;
        left(refused, &before, state)
            .map_err(|why| format!("read with {lent} bytes into {room}, {got:?}: {why}"))?;
        Ok(got)
    }

    /// Nothing lent has changed but the first `may` bytes of the buffer.
    fn compare(&mut self, may: usize) -> Result<(), String> {
        let (ours, theirs) = self.buffer.both(0..may);
        theirs.copy_from_slice(ours);
        for (name, twin) in [("page", &self.page), ("buffer", &self.buffer)] {
            if !twin.equal_to(usize::MAX) {
                let place = twin.first_difference();
                return Err(format!("{name} changed at {place:?}"));
            }
        }
        Ok(())
    }
}

/// The numbers of the reading steps, Torn aside.
fn is_standing(number: u32) -> bool {
    (RESERVED..=BAD_SUM).contains(&number) || number == HOLLOW
}

fn any_bytes(rng: &mut Rng) -> Vec<u8> {
    let pages = 1 + rng.below(3);
    match rng.below(3) {
        0 => generate::foreign_from_0(rng, Splitting::Short).bytes,
        1 => generate::foreign_from_0(rng, Splitting::Long).bytes,
        _ => generate::written_by(rng, pages, 12).bytes,
    }
}
