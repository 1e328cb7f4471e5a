// The entries: what they refuse, what they answer and what they write.
use crate::image;
use crate::path::{Next, NoRoom, fit, fitting, follow, next, next_goal, none_fits};
use crate::read::{self, Profile};
use crate::reason::furthest;
use crate::tree::{Clause, Goal};

#[derive(Default, Clone, Copy, PartialEq, Debug)]
pub struct Answer {
    pub code: u8,
    pub place: u32,
    pub steps: u32,
    pub span: u32,
    pub bytes: u32,
    /// The bytes of a run's answer.
    pub answer: u32,
    pub clause: u32,
    /// The clause that got furthest, and the argument at which its head fails: other than 0 with code 22 alone.
    pub furthest: u32,
    pub argument: u32,
}

fn refused(refusal: read::Refusal) -> Answer {
    Answer { code: refusal.code, place: refusal.place, ..Answer::default() }
}

fn only(code: u8) -> Answer {
    Answer { code, ..Answer::default() }
}

fn inputs(profile: Profile, book: &[u8], query: &[u8]) -> Result<(Vec<Clause>, Goal), Answer> {
    let clauses = read::book(profile, book).map_err(refused)?;
    let goal = read::query(profile, &clauses, query).map_err(refused)?;
    Ok((clauses, goal))
}

fn with_areas(profile: Profile, book: &[u8], query: &[u8], areas: &[&[u8]]) -> Result<(Vec<Clause>, Goal), Answer> {
    if areas.iter().any(|area| area.len() < 16387) { Err(only(1)) } else { inputs(profile, book, query) }
}

fn write(goal: &Goal, area: &mut [u8]) -> u32 {
    let image = image::of(goal);
    area[..image.len()].copy_from_slice(&image);
    image.len() as u32
}

/// One step taken by a clause.
fn stepped(clause: u32, goal: &Goal, area: &mut [u8]) -> Answer {
    Answer { steps: 1, bytes: write(goal, area), clause, ..only(25) }
}

/// The code at a state's goal, and with 22 the figures.
fn at(code: u8, clauses: &[Clause], goal: &Goal) -> Answer {
    if code != 22 {
        return only(code);
    }
    let (clause, argument) = furthest(clauses, goal);
    Answer { furthest: clause as u32, argument: argument as u32, ..only(22) }
}

/// "The goal area and the answer area hold the goal and the instance at the closing state" (document 02, C-11).
pub fn run(book: &[u8], query: &[u8], budget: u32, area: &mut [u8], space: &mut [u8]) -> Answer {
    run_in(Profile::Plain, book, query, budget, area, space)
}

pub fn run_in(profile: Profile, book: &[u8], query: &[u8], budget: u32, area: &mut [u8], space: &mut [u8]) -> Answer {
    let (clauses, goal) = match with_areas(profile, book, query, &[area, space]) {
        Ok(good) => good,
        Err(answer) => return answer,
    };
    let (code, span, state) = follow(&clauses, goal, budget);
    let (bytes, answer) = (write(&state.goal, area), write(&state.answer, space));
    Answer { steps: state.t, span, bytes, answer, ..at(code, &clauses, &state.goal) }
}

pub fn step(profile: Profile, book: &[u8], query: &[u8], area: &mut [u8]) -> Answer {
    let (clauses, goal) = match with_areas(profile, book, query, &[area]) {
        Ok(good) => good,
        Err(answer) => return answer,
    };
    if goal.is_empty() {
        return only(20);
    }
    match next_goal(&clauses, &goal) {
        Next::Stuck => at(none_fits(&clauses, &goal), &clauses, &goal),
        Next::NoRoom => only(24),
        Next::Goal(number, goal) => stepped(number as u32, &goal, area),
    }
}

/// "The pick answers 20, 22, 26 or else 25 with the clause number; it doesn't look at the next goal's size and never writes; its steps are 0."
pub fn pick(book: &[u8], query: &[u8]) -> Answer {
    let (clauses, goal) = match inputs(Profile::Plain, book, query) {
        Ok(good) => good,
        Err(answer) => return answer,
    };
    if goal.is_empty() {
        return only(20);
    }
    match fitting(&clauses, &goal) {
        Some((number, _)) => Answer { clause: number as u32, ..only(25) },
        None => at(none_fits(&clauses, &goal), &clauses, &goal),
    }
}

/// "Refusals of the apply call, after the input codes: 20 empty goal, 32 no such clause, 33 head doesn't unify, 24; in this order."
pub fn apply(book: &[u8], query: &[u8], clause: u32, area: &mut [u8]) -> Answer {
    let (clauses, goal) = match with_areas(Profile::Plain, book, query, &[area]) {
        Ok(good) => good,
        Err(answer) => return answer,
    };
    if goal.is_empty() {
        return only(20);
    }
    let Some(chosen) = clauses.get(clause as usize) else { return only(32) };
    let Some(fit) = fit(chosen, &goal) else { return only(33) };
    match next(chosen, &fit, &goal) {
        Ok(goal) => stepped(clause, &goal, area),
        Err(NoRoom) => only(24),
    }
}
