// Whether the span of a loop is the shortest period of the leftmost formula (document 02, C-23), by walking that formula alone.
use crate::entries::Answer;
use crate::item::Case;
use crate::path::{Next, next_goal};
use crate::read::{self, Profile};
use crate::tree::{Clause, Formula, Goal, essentially_the_same};

fn stepped(clauses: &[Clause], goal: &Goal) -> Result<Goal, String> {
    match next_goal(clauses, goal) {
        Next::Goal(_, goal) => Ok(goal),
        _ => Err("a loop's path ends".to_string()),
    }
}

fn walked(clauses: &[Clause], mut goal: Goal, steps: u32) -> Result<Goal, String> {
    for _ in 0..steps {
        goal = stepped(clauses, &goal)?;
    }
    Ok(goal)
}

/// The least r of at least 1 such that after r steps from the formula alone the leftmost formula is essentially the same, up to a limit.
fn period(clauses: &[Clause], formula: &Formula, limit: u32) -> Result<u32, String> {
    let mut goal = vec![formula.clone()];
    for r in 1..=limit {
        goal = stepped(clauses, &goal)?;
        match goal.first() {
            Some(first) if essentially_the_same(first, formula) => return Ok(r),
            Some(_) => {}
            None => break,
        }
    }
    Err(format!("the leftmost formula of a loop of span {limit} does not come back"))
}

/// The span is the shortest period of the leftmost formula at the closing state, and of the one at the last save.
pub fn shortest(case: &Case, a: &Answer) -> Result<(), String> {
    let refused = |_| "a loop that is refused".to_string();
    let clauses = read::book(Profile::Plain, &case.book).map_err(refused)?;
    let query = read::query(Profile::Plain, &clauses, &case.query).map_err(refused)?;
    let saved = walked(&clauses, query, a.steps - a.span)?;
    let closing = walked(&clauses, saved.clone(), a.span)?;
    for goal in [saved, closing] {
        let r = period(&clauses, &goal[0], a.span)?;
        if r != a.span {
            return Err(format!("a loop at step {} has span {} and period {r}", a.steps, a.span));
        }
    }
    Ok(())
}
