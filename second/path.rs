// The path and its detection states, and the answer that a run carries along (document 02, C-11).
use crate::tree::{Clause, Formula, Goal, Term, Tree, essentially_the_same, moved, unused};
use crate::unify::{Solution, unify};
use std::collections::HashMap;
use std::rc::Rc;

pub struct NoRoom;

/// Writes a goal out anew under a solution, and then an answer: variables numbered by first appearance, at most 4,096 nodes in each.
struct Copier<'a> {
    solution: &'a Solution,
    names: HashMap<u32, u32>,
    nodes: usize,
}

impl Copier<'_> {
    fn another_node(&mut self) -> Result<(), NoRoom> {
        self.nodes += 1;
        if self.nodes > 4096 { Err(NoRoom) } else { Ok(()) }
    }

    fn tree(&mut self, tree: &Tree) -> Result<Tree, NoRoom> {
        self.another_node()?;
        let value = self.solution.value(tree);
        match &*value {
            Term::Variable(number) => {
                let next = self.names.len() as u32;
                let name = *self.names.entry(*number).or_insert(next);
                Ok(if name == *number { value } else { Rc::new(Term::Variable(name)) })
            }
            Term::Constant(_) => Ok(value),
            Term::Compound(symbol, inner) => Ok(Rc::new(Term::Compound(*symbol, self.trees(inner)?))),
        }
    }

    fn trees(&mut self, trees: &[Tree]) -> Result<Vec<Tree>, NoRoom> {
        trees.iter().map(|t| self.tree(t)).collect()
    }

    fn formula(&mut self, formula: &Formula) -> Result<Formula, NoRoom> {
        self.another_node()?;
        Ok(Formula { predicate: formula.predicate, arguments: self.trees(&formula.arguments)? })
    }

    /// "The formula replaced by the body, the unifier applied throughout."
    fn goal(&mut self, clause: &Clause, fit: &Fit, goal: &Goal) -> Result<Goal, NoRoom> {
        let mut made = Vec::new();
        for formula in &clause.body {
            made.push(self.formula(&moved(formula, fit.apart))?);
        }
        for formula in &goal[1..] {
            made.push(self.formula(formula)?);
        }
        if made.len() > 512 { Err(NoRoom) } else { Ok(made) }
    }

    /// "Goal variables keep their numbers; variables found only in the answer come after them by first appearance."
    fn answer(&mut self, answer: &Goal) -> Result<Goal, NoRoom> {
        self.nodes = 0;
        answer.iter().map(|formula| self.formula(formula)).collect()
    }
}

/// How far a clause's variables are moved up, to be none of the goal's, nor of the answer's, and a most general unifier of its head with the leftmost
/// formula.
pub struct Fit {
    apart: u32,
    solution: Solution,
}

fn fit_moved(clause: &Clause, goal: &Goal, apart: u32) -> Option<Fit> {
    if !clause.head.same_predicate(&goal[0]) {
        return None;
    }
    unify(&goal[0], &moved(&clause.head, apart)).map(|solution| Fit { apart, solution })
}

pub fn fit(clause: &Clause, goal: &Goal) -> Option<Fit> {
    fit_moved(clause, goal, unused(goal))
}

fn fitting_moved(clauses: &[Clause], goal: &Goal, apart: u32) -> Option<(usize, Fit)> {
    clauses.iter().enumerate().find_map(|(number, clause)| Some((number, fit_moved(clause, goal, apart)?)))
}

/// The first clause whose head unifies with the leftmost formula.
pub fn fitting(clauses: &[Clause], goal: &Goal) -> Option<(usize, Fit)> {
    fitting_moved(clauses, goal, unused(goal))
}

/// What no fitting clause means: 22 where the book has clauses of the leftmost formula's predicate and arity, and 26 where it has none.
pub fn none_fits(clauses: &[Clause], goal: &Goal) -> u8 {
    if clauses.iter().any(|clause| clause.head.same_predicate(&goal[0])) { 22 } else { 26 }
}

fn copier(fit: &Fit) -> Copier<'_> {
    Copier { solution: &fit.solution, names: HashMap::new(), nodes: 0 }
}

/// The next goal, with its variables numbered anew.
pub fn next(clause: &Clause, fit: &Fit, goal: &Goal) -> Result<Goal, NoRoom> {
    copier(fit).goal(clause, fit, goal)
}

/// The next goal and the next answer; 24 where the goal has no room, and otherwise 27 where the answer has none.
fn next_both(clause: &Clause, fit: &Fit, goal: &Goal, answer: &Goal) -> Result<(Goal, Goal), u8> {
    let mut copier = copier(fit);
    let goal = copier.goal(clause, fit, goal).map_err(|NoRoom| 24)?;
    let answer = copier.answer(answer).map_err(|NoRoom| 27)?;
    Ok((goal, answer))
}

pub enum Next {
    Stuck,
    NoRoom,
    /// By a clause's number.
    Goal(usize, Goal),
}

/// The goal after a goal that is not empty.
pub fn next_goal(clauses: &[Clause], goal: &Goal) -> Next {
    let Some((number, fit)) = fitting(clauses, goal) else { return Next::Stuck };
    match next(&clauses[number], &fit, goal) {
        Ok(goal) => Next::Goal(number, goal),
        Err(NoRoom) => Next::NoRoom,
    }
}

pub struct State {
    pub t: u32,
    length: usize,
    formula: Option<Formula>,
    saved_at: u32,
    pub goal: Goal,
    /// The query's formulas, with each step's unifier applied.
    pub answer: Goal,
}

impl State {
    fn first(query: Goal) -> State {
        State { t: 0, length: 0, formula: None, saved_at: 0, goal: query.clone(), answer: query }
    }

    /// "The loop test looks at the goal alone."
    fn looped(&self) -> bool {
        match &self.formula {
            Some(saved) => self.goal.len() >= self.length && essentially_the_same(saved, &self.goal[0]),
            None => false,
        }
    }

    fn save(&mut self) {
        self.length = self.goal.len();
        self.formula = Some(self.goal[0].clone());
        self.saved_at = self.t;
    }
}

fn on_schedule(t: u32) -> bool {
    t == 0 || t.is_power_of_two()
}

/// Goes along the path to the closing state: its code and span, and the state.
pub fn follow(clauses: &[Clause], query: Goal, budget: u32) -> (u8, u32, State) {
    let mut state = State::first(query);
    loop {
        if state.goal.is_empty() {
            return (20, 0, state);
        }
        if state.looped() {
            return (21, state.t - state.saved_at, state);
        }
        let apart = unused(&state.goal).max(unused(&state.answer));
        let Some((number, fit)) = fitting_moved(clauses, &state.goal, apart) else {
            return (none_fits(clauses, &state.goal), 0, state);
        };
        if state.t == budget {
            return (23, 0, state);
        }
        let (goal, answer) = match next_both(&clauses[number], &fit, &state.goal, &state.answer) {
            Ok(both) => both,
            Err(code) => return (code, 0, state),
        };
        if on_schedule(state.t) || state.goal.len() < state.length {
            state.save();
        }
        (state.goal, state.answer) = (goal, answer);
        state.t += 1;
    }
}
