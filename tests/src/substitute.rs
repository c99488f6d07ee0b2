//! Substitution of numerals for free variables (01, "Filling"), and the test for free variables.

use std::collections::{BTreeMap, BTreeSet};

use crate::tree::{atom_variable, simple_variable, Atom, Term, Value, Variable};

/// The numerals that stand for variables; a variable without one is left as it is.
pub type Values = BTreeMap<Variable, Value>;

/// A store, or the numerals of a tuple, as values of the variables 1, 2, 3 and so on.
pub fn values_of(store: &[Value]) -> Values {
    (1..).zip(store.iter().copied()).collect()
}

/// Replaces the variables that are free in the term, as far as they have a value, and gives how many
/// places these were (02, C-13).
pub fn substitute(term: &mut Term, values: &Values) -> u32 {
    match term {
        Term::Tuple(atoms) => substitute_atoms(atoms, values),
        // Let-one binds its variable in its last term only, so not in what it is given.
        Term::LetOne(variable, simple, last) => {
            let own = substitute_atom(simple.atom_mut(), values);
            if values.contains_key(variable) {
                let mut others = values.clone();
                others.remove(variable);
                own + substitute(last, &others)
            } else {
                own + substitute(last, values)
            }
        }
        // Let-all binds every variable in its last term.
        Term::LetAll(first, _) => substitute(first, values),
        // Rec binds every variable in its body; its count and start tuple are open.
        Term::Rec(_, count, start, _) => {
            substitute_atom(count, values) + substitute_atoms(start, values)
        }
    }
}

fn substitute_atoms(atoms: &mut [Atom], values: &Values) -> u32 {
    let each = atoms.iter_mut().map(|atom| substitute_atom(atom, values));
    each.sum()
}

/// 1 where a variable became a numeral, 0 where the atom stays.
fn substitute_atom(atom: &mut Atom, values: &Values) -> u32 {
    let value = atom_variable(atom).and_then(|variable| values.get(&variable));
    match value {
        None => 0,
        Some(value) => {
            *atom = Atom::Numeral(*value);
            1
        }
    }
}

/// The variables free in the term, by the same binding rules.
pub fn free_variables(term: &Term) -> BTreeSet<Variable> {
    match term {
        Term::Tuple(atoms) => atoms.iter().filter_map(atom_variable).collect(),
        Term::LetOne(variable, simple, last) => {
            let mut free = free_variables(last);
            free.remove(variable);
            free.extend(simple_variable(simple));
            free
        }
        Term::LetAll(first, _) => free_variables(first),
        Term::Rec(_, count, start, _) => {
            let atoms = start.iter().chain([count]);
            atoms.filter_map(atom_variable).collect()
        }
    }
}

/// Closed: no free variable (01, "Reducer").
pub fn closed(term: &Term) -> bool {
    free_variables(term).is_empty()
}
