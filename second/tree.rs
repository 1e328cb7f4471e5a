// Terms, formulas, clauses and goals as trees.
use std::rc::Rc;

pub type Tree = Rc<Term>;

#[derive(PartialEq)]
pub enum Term {
    Variable(u32),
    Constant(u16),
    Compound(u16, Vec<Tree>),
}

#[derive(Clone)]
pub struct Formula {
    pub predicate: u16,
    pub arguments: Vec<Tree>,
}

pub struct Clause {
    pub head: Formula,
    pub body: Vec<Formula>,
}

pub type Goal = Vec<Formula>;

impl Formula {
    /// Symbols are the same only with the same arity.
    pub fn same_predicate(&self, other: &Formula) -> bool {
        self.predicate == other.predicate && self.arguments.len() == other.arguments.len()
    }
}

pub fn nodes(goal: &Goal) -> usize {
    fn of(tree: &Tree) -> usize {
        match &**tree {
            Term::Compound(_, inner) => 1 + inner.iter().map(of).sum::<usize>(),
            _ => 1,
        }
    }
    goal.iter().map(|f| 1 + f.arguments.iter().map(of).sum::<usize>()).sum()
}

/// One more than the largest variable number of a goal: a clause whose numbers are moved up by it shares no variable with the goal.
pub fn unused(goal: &Goal) -> u32 {
    fn past(tree: &Tree) -> u32 {
        match &**tree {
            Term::Variable(number) => number + 1,
            Term::Constant(_) => 0,
            Term::Compound(_, inner) => inner.iter().map(past).max().unwrap_or(0),
        }
    }
    goal.iter().flat_map(|f| f.arguments.iter().map(past)).max().unwrap_or(0)
}

pub fn moved(formula: &Formula, by: u32) -> Formula {
    fn tree_moved(tree: &Tree, by: u32) -> Tree {
        match &**tree {
            Term::Variable(number) => Rc::new(Term::Variable(number + by)),
            Term::Constant(_) => tree.clone(),
            Term::Compound(symbol, inner) => Rc::new(Term::Compound(*symbol, inner.iter().map(|t| tree_moved(t, by)).collect())),
        }
    }
    Formula { predicate: formula.predicate, arguments: formula.arguments.iter().map(|t| tree_moved(t, by)).collect() }
}

/// Equal up to renaming of variables: the variables met side by side pair off one to one.
pub fn essentially_the_same(a: &Formula, b: &Formula) -> bool {
    let mut pairs = Vec::new();
    a.same_predicate(b) && a.arguments.iter().zip(&b.arguments).all(|(x, y)| alike(x, y, &mut pairs))
}

fn alike(a: &Tree, b: &Tree, pairs: &mut Vec<(u32, u32)>) -> bool {
    match (&**a, &**b) {
        (Term::Variable(x), Term::Variable(y)) => {
            for (p, q) in pairs.iter() {
                if p == x || q == y {
                    return p == x && q == y;
                }
            }
            pairs.push((*x, *y));
            true
        }
        (Term::Constant(x), Term::Constant(y)) => x == y,
        (Term::Compound(f, x), Term::Compound(g, y)) => {
            f == g && x.len() == y.len() && x.iter().zip(y).all(|(s, t)| alike(s, t, pairs))
        }
        _ => false,
    }
}
