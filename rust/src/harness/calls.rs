//! Functions with what each calls and where it divides, and all that one of them reaches.

use std::collections::btree_map::Entry;
use std::collections::{BTreeMap, BTreeSet};

/// All that a call of one reaches, itself too, each with what `look` finds in it. `look` tells what it
/// calls as well.
pub fn reached<Name: Ord, Found>(
    from: Name,
    mut look: impl FnMut(&Name) -> (Found, Vec<Name>),
) -> BTreeMap<Name, Found> {
    let mut reached = BTreeMap::new();
    let mut next = vec![from];
    while let Some(name) = next.pop() {
        if let Entry::Vacant(place) = reached.entry(name) {
            let (found, calls) = look(place.key());
            next.extend(calls);
            place.insert(found);
        }
    }
    reached
}

/// A function: the names that it calls, and its divisions as its text has them.
#[derive(Debug)]
pub struct Function<Division> {
    pub calls: BTreeSet<String>,
    pub divisions: Vec<Division>,
}

impl<Division> Function<Division> {
    /// One that calls nothing and divides nowhere.
    pub fn empty() -> Self {
        Self {
            calls: BTreeSet::new(),
            divisions: Vec::new(),
        }
    }
}

/// The functions of a program at their names.
#[derive(Debug)]
pub struct Functions<Division>(pub BTreeMap<String, Function<Division>>);

impl<Division> Functions<Division> {
    /// A function and all that it calls, through others too. One that is not there could divide, so
    /// it may not be called.
    pub fn reached<'a>(&'a self, from: &'a str) -> BTreeMap<&'a str, &'a Function<Division>> {
        reached(from, |&name| {
            let function = self.0.get(name);
            let function = function
                .unwrap_or_else(|| panic!("{from} reaches {name}, whose code is not there"));
            let calls = function.calls.iter().map(String::as_str).collect();
            (function, calls)
        })
    }

    /// The divisions of a function and of all that it calls, each with the function that it is in.
    pub fn divisions<'a>(&'a self, from: &'a str) -> Vec<(&'a str, &'a Division)> {
        let reached = self.reached(from).into_iter();
        reached
            .flat_map(|(name, function)| function.divisions.iter().map(move |found| (name, found)))
            .collect()
    }
}

#[cfg(test)]
mod tests {
    use super::{reached, Function, Functions};

    fn function(calls: &[&str], divisions: &[u32]) -> Function<u32> {
        Function {
            calls: calls.iter().map(|&name| name.into()).collect(),
            divisions: divisions.to_vec(),
        }
    }

    /// `a` calls `b` and itself, `b` and `c` call each other; `d` is called by none, and calls what
    /// is not there.
    fn program() -> Functions<u32> {
        let functions = [
            ("a", function(&["a", "b"], &[])),
            ("b", function(&["c"], &[])),
            ("c", function(&["b"], &[3, 8])),
            ("d", function(&["nowhere"], &[5])),
        ];
        Functions(functions.map(|(name, it)| (name.into(), it)).into())
    }

    #[test]
    fn each_is_looked_at_once() {
        let calls = [vec![0, 1], vec![2], vec![1], vec![4]];
        let mut looks = Vec::new();
        let reached = reached(0, |&name| {
            looks.push(name);
            (name * name, calls[name].clone())
        });
        assert_eq!(reached, [(0, 0), (1, 1), (2, 4)].into());
        assert_eq!(looks, [0, 1, 2]);
    }

    #[test]
    fn divisions_are_found_through_calls() {
        let program = program();
        let reached: Vec<_> = program.reached("a").into_keys().collect();
        assert_eq!(reached, ["a", "b", "c"]);
        assert_eq!(program.divisions("a"), [("c", &3), ("c", &8)]);
    }

    #[test]
    #[should_panic(expected = "d reaches nowhere, whose code is not there")]
    fn code_that_is_not_there_is_refused() {
        program().divisions("d");
    }
}
