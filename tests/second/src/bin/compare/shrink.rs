//! Makes a case shorter and plainer while the two programs still differ on it.
//! Any difference will do, it need not be the one that was found first.

use crate::program::{bytes_of, Pair};
use second::form::{Case, FLAGS, LEAVE, MORE_WORDS};
use std::io;
use std::ops::Range;

/// So many bytes of cases are tried in all, so that a case that only differs
/// because of its length doesn't keep the programs busy for hours.
const MOST_BYTES: usize = 120_000_000;
/// And so many in one run of the programs.
const RUN_BYTES: usize = 8_000_000;
const MOST_AT_ONCE: usize = 10_000;
const MOST_ROUNDS: usize = 6;

const WP: u8 = 4;
const VCC: u8 = 8;

/// Nothing pulled and both lines high, out of reset, no latch and no choice.
const PLAIN_FLAGS: u32 = 0x61;

pub fn shrink(pair: &Pair, case: &Case) -> io::Result<Case> {
    let mut work = Shrinker {
        pair,
        case: case.clone(),
        bytes_left: MOST_BYTES,
    };
    for _ in 0..MOST_ROUNDS {
        let before = work.case.clone();
        work.plain_head()?;
        work.drop_samples()?;
        work.plain_array()?;
        work.small_times()?;
        work.plain_levels()?;
        if work.case == before || work.bytes_left == 0 {
            break;
        }
    }
    Ok(work.case)
}

struct Shrinker<'a> {
    pair: &'a Pair,
    case: Case,
    bytes_left: usize,
}

impl Shrinker<'_> {
    /// Takes the first of the cases on which the programs differ, and says
    /// which it was. All go through the programs in one run; the one taken is
    /// run alone as well, as it has to stand by itself.
    fn take_first(&mut self, tries: &[Case]) -> io::Result<Option<usize>> {
        let mut from = 0;
        while from < tries.len() {
            let input = bytes_of(&tries[from..]);
            if input.len() > self.bytes_left {
                self.bytes_left = 0;
                return Ok(None);
            }
            self.bytes_left -= input.len();
            let Some(found) = self.pair.difference(&input, |_, _| ())? else {
                return Ok(None);
            };
            let index = from + found.index;
            if found.case.is_none() {
                return Ok(None);
            }
            let alone = &input[found.begin..found.end];
            if self.pair.difference(alone, |_, _| ())?.is_some() {
                self.case = tries[index].clone();
                return Ok(Some(index));
            }
            from = index + 1;
        }
        Ok(None)
    }

    /// Tries a change on ever smaller pieces of something `length` long: the
    /// whole, halves, quarters, and so on down to single ones. A change that
    /// does nothing to a piece gives none.
    fn by_pieces(
        &mut self,
        length: fn(&Case) -> usize,
        change: impl Fn(&Case, Range<usize>) -> Option<Case>,
    ) -> io::Result<()> {
        let mut size = length(&self.case);
        // How many pieces go into one run: more after runs that took none.
        let mut at_once = 4;
        while size > 0 {
            let mut begin = 0;
            while begin < length(&self.case) {
                let mut tries = Vec::new();
                let mut places = Vec::new();
                let room = (RUN_BYTES / bytes_of(&[self.case.clone()]).len()).max(1);
                let all = length(&self.case);
                while begin < all && tries.len() < at_once.min(room) {
                    let end = (begin + size).min(all);
                    if let Some(case) = change(&self.case, begin..end) {
                        tries.push(case);
                        places.push((begin, end));
                    }
                    begin = end;
                }
                match self.take_first(&tries)? {
                    Some(index) => {
                        let (first, end) = places[index];
                        // Where a piece was dropped, the next has moved up.
                        begin = if length(&self.case) < all { first } else { end };
                        at_once = (at_once / 2).max(1);
                    }
                    None => at_once = (at_once * 2).min(MOST_AT_ONCE),
                }
                if self.bytes_left == 0 {
                    return Ok(());
                }
            }
            size = if size == 1 { 0 } else { size.div_ceil(2) };
        }
        Ok(())
    }

    /// The words before the rows: one replay, no state put in, an X4323 with
    /// an empty register and select 0. Where it must be a larger part, an X4283.
    fn plain_head(&mut self) -> io::Result<()> {
        self.try_one(|case| case.times = 1)?;
        self.try_one(|case| {
            case.part = 4_323;
            case.array.truncate(4_096);
        })?;
        self.try_one(|case| case.state = [LEAVE; 8])?;
        for field in 0..8 {
            self.try_one(|case| case.state[field] = LEAVE)?;
        }
        self.plain_more()?;
        self.try_one(|case| case.part = 4_323)?;
        if self.case.part == 4_285 {
            self.try_one(|case| case.part = 4_283)?;
        }
        self.try_one(|case| case.select = 0)?;
        self.try_one(|case| case.stored = 0)?;
        for bit in 0..8 {
            self.try_one(|case| case.stored &= !(1 << bit))?;
        }
        Ok(())
    }

    /// The words of a long case: none, else as many left as power-up set them
    /// as can be, and flags as they stand then.
    fn plain_more(&mut self) -> io::Result<()> {
        self.try_one(|case| case.more = None)?;
        self.try_more(|more| *more = [LEAVE; MORE_WORDS])?;
        for field in 0..MORE_WORDS {
            self.try_more(|more| more[field] = LEAVE)?;
        }
        for bit in [1, 2, 4, 8, 16, 32, 64, 128] {
            self.try_more(|more| {
                // Flags that are left or too wide have no bits to bend.
                if more[FLAGS] <= 0xFF {
                    more[FLAGS] = more[FLAGS] & !bit | PLAIN_FLAGS & bit;
                }
            })?;
        }
        Ok(())
    }

    fn try_more(&mut self, change: impl Fn(&mut [u32; MORE_WORDS])) -> io::Result<()> {
        self.try_one(|case| {
            if let Some(more) = &mut case.more {
                change(more);
            }
        })
    }

    fn try_one(&mut self, change: impl Fn(&mut Case)) -> io::Result<()> {
        let mut case = self.case.clone();
        change(&mut case);
        if case != self.case {
            self.take_first(&[case])?;
        }
        Ok(())
    }

    /// Samples go from all three rows; rows of unequal length stay so.
    fn drop_samples(&mut self) -> io::Result<()> {
        let longest = |case: &Case| case.levels.len().max(case.elapsed.len());
        self.by_pieces(longest, |case, range| {
            let mut shorter = case.clone();
            cut(&mut shorter.elapsed, &range);
            cut(&mut shorter.levels, &range);
            let gone = case.levels.len() - shorter.levels.len();
            shorter.answer_len = case.answer_len.saturating_sub(gone as u32);
            Some(shorter)
        })
    }

    /// Array bytes all FFh or all 0, else as many of them FFh as can be.
    fn plain_array(&mut self) -> io::Result<()> {
        if self.case.array.iter().all(|&byte| byte == 0) {
            // As plain as FFh; going back and forth would never end.
            return Ok(());
        }
        for byte in [0xFF, 0x00] {
            self.try_one(|case| case.array.fill(byte))?;
            if self.case.array.iter().all(|&other| other == byte) {
                return Ok(());
            }
        }
        self.by_pieces(
            |case| case.array.len(),
            |case, range| {
                let mut plainer = case.clone();
                plainer.array[range].fill(0xFF);
                (plainer != *case).then_some(plainer)
            },
        )
    }

    /// No time at all where that will do, else the smallest of a few.
    fn small_times(&mut self) -> io::Result<()> {
        self.by_pieces(
            |case| case.elapsed.len(),
            |case, range| {
                let mut smaller = case.clone();
                smaller.elapsed[range].fill(0);
                (smaller != *case).then_some(smaller)
            },
        )?;
        for place in 0..self.case.elapsed.len() {
            if self.bytes_left == 0 {
                return Ok(());
            }
            let now = self.case.elapsed[place];
            let tries: Vec<Case> = [1, 10, 100, 1_000, 5_000, 10_000, 50_000, 100_000]
                .into_iter()
                .filter(|&time| time < now)
                .map(|time| {
                    let mut smaller = self.case.clone();
                    smaller.elapsed[place] = time;
                    smaller
                })
                .collect();
            self.take_first(&tries)?;
        }
        Ok(())
    }

    /// WP low and VCC good wherever they don't matter.
    fn plain_levels(&mut self) -> io::Result<()> {
        for (clear, set) in [(WP, 0), (0, VCC)] {
            self.by_pieces(
                |case| case.levels.len(),
                |case, range| {
                    let mut plainer = case.clone();
                    for level in &mut plainer.levels[range] {
                        *level = *level & !clear | set;
                    }
                    (plainer != *case).then_some(plainer)
                },
            )?;
        }
        Ok(())
    }
}

fn cut<T>(row: &mut Vec<T>, range: &Range<usize>) {
    let end = range.end.min(row.len());
    row.drain(range.start.min(end)..end);
}
