//! The body of a function of the compiler's MIR, in JSON: what it calls and where it divides. It is made of
//! words and of forms that hold others. The kit defines them in `logic/Mir/Syntax.antt`, in its own
//! spelling: a call names its function or a method of what answers for a bound, and of the operations on
//! integers `Div` and `Rem` divide.

use crate::harness::json::Value;

/// The forms that hold others. One that is not among them could call or divide, and is refused.
const FORMS: &str =
    "AddrOf Aggregate Assign Call Copy Exit Field If Int Ints Lit Opd Parts Repeat Switch Variant \
    local steps value values width";

/// The forms that hold a type, in which there is no code.
const OF_TYPES: &str = "Deref NumOf SizeOf";

/// The number of each type parameter, where it is a const parameter whose number is known.
type Numbers = Vec<Option<u64>>;

/// The words that hold nothing. Any other is refused, as a form is.
const WORDS: &str = "Block False Loop Return Seq Skip True Unit Unreachable";

/// The operations that divide nothing. Of others only `Div` and `Rem` are known.
const OPERATIONS: &str = "Add And Cast Eq Le Lt Mul Ne Not Offset Or Shr Sub Xor";

/// A division or a remainder: `Div` or `Rem`, and by which constant, where it is by one.
#[derive(Clone, Debug, PartialEq)]
pub struct Division {
    pub operation: String,
    pub by: Option<u64>,
}

/// What answers for a bound: an impl of its trait, and what answers for the impl's own bounds.
#[derive(Clone, Debug, PartialEq, Eq, PartialOrd, Ord)]
struct Dictionary {
    of: String,
    methods: Vec<String>,
    given: Vec<Dictionary>,
}

/// A function, with a dictionary for each of its bounds, and with the numbers of its const parameters.
///
/// A function that is generic calls a method, a closure's too, by the number of a bound. Which one runs
/// hangs on the dictionary that its caller passed for the bound: an impl that the caller names, or one that
/// it was passed itself. MIR has no other dictionaries, and no other way to pass them than in a call. So
/// where a function is looked at for each choice of dictionaries with which it is called, no method runs
/// that was not looked at. `logic/Mir/Inst.antt` resolves calls so for the machine.
#[derive(Clone, Debug, PartialEq, Eq, PartialOrd, Ord)]
pub struct Instance {
    pub function: String,
    given: Vec<Dictionary>,
    numbers: Numbers,
}

impl Instance {
    /// A function that has no bounds.
    pub fn of(function: &str) -> Self {
        Self {
            function: function.into(),
            given: Vec::new(),
            numbers: Numbers::new(),
        }
    }

    /// Where the function divides, and what it calls. Its code is what the JSON has at its name.
    pub fn look(&self, code: &Value) -> (Vec<Division>, Vec<Self>) {
        let generics = code.get("generics");
        let bounds = generics.get("bounds").list().iter();
        let bounds: Vec<_> = bounds.map(|bound| bound.get("of").text()).collect();
        let given: Vec<_> = self.given.iter().map(|it| it.of.as_str()).collect();
        assert_eq!(given, bounds, "the bounds of {}", self.function);
        let mut body = Body {
            instance: self,
            impls: generics.get("impls").list(),
            calls: Vec::new(),
            divisions: Vec::new(),
        };
        body.look_at(code.get("body"));
        (body.divisions, body.calls)
    }
}

/// What was seen of a function's body.
struct Body<'a> {
    instance: &'a Instance,
    /// Those that the function names.
    impls: &'a [Value],
    calls: Vec<Instance>,
    divisions: Vec<Division>,
}

impl Body<'_> {
    fn look_at(&mut self, term: &Value) {
        match term {
            Value::Number(_) | Value::Bool(_) => {}
            Value::Text(word) if is_among(WORDS, word) => {}
            Value::List(terms) => self.look_at_all(terms),
            Value::Object(forms) => {
                for (form, parts) in forms {
                    self.look_at_form(form, parts);
                }
            }
            _ => panic!("not a known word of MIR: {term:?}"),
        }
    }

    fn look_at_all(&mut self, terms: &[Value]) {
        for term in terms {
            self.look_at(term);
        }
    }

    fn look_at_form(&mut self, form: &str, parts: &Value) {
        match (form, parts) {
            ("Fn", Value::List(parts)) => self.calls.push(self.function(parts)),
            ("Method", Value::List(parts)) => self.calls.push(self.method(parts)),
            ("Op1" | "Op2", Value::List(parts)) => {
                let [operation, operands @ ..] = parts.as_slice() else {
                    panic!("no operation");
                };
                let numbers = &self.instance.numbers;
                self.divisions
                    .extend(division(operation, operands, numbers));
                self.look_at_all(operands);
            }
            // A constant in memory of its own, at a type.
            ("LendStatic", Value::List(parts)) => {
                let [place, _, constant] = parts.as_slice() else {
                    panic!("not a constant that is lent: {parts:?}");
                };
                self.look_at(place);
                self.look_at(constant);
            }
            (form, parts) if is_among(FORMS, form) => self.look_at(parts),
            (form, _) if is_among(OF_TYPES, form) => {}
            _ => panic!("not a known form of MIR: {form} of {parts:?}"),
        }
    }

    /// The function that a call names.
    fn function(&self, parts: &[Value]) -> Instance {
        let [name, arguments] = parts else {
            panic!("not a call of a function: {parts:?}");
        };
        Instance {
            function: name.text().into(),
            given: self.dictionaries(arguments.get("dicts")),
            numbers: self.numbers(arguments.get("types")),
        }
    }

    /// The method that a call runs. It has the bounds of its impl, then its own.
    fn method(&self, parts: &[Value]) -> Instance {
        let [dictionary, number, arguments] = parts else {
            panic!("not a call of a method: {parts:?}");
        };
        let Dictionary { of, methods, given } = self.dictionary(dictionary);
        let method = at(&methods, number);
        let own = self.dictionaries(arguments.get("dicts"));
        Instance {
            function: method.unwrap_or_else(|| panic!("an impl of {of} has no method {number:?}")),
            given: [given, own].concat(),
            // Which of its types are the impl's is not asked, so no number is known.
            numbers: Numbers::new(),
        }
    }

    /// The numbers that a call passes for const parameters: constants, or the caller's own.
    fn numbers(&self, types: &Value) -> Numbers {
        let types = types.list().iter();
        types.map(|ty| number(ty, &self.instance.numbers)).collect()
    }

    fn dictionaries(&self, terms: &Value) -> Vec<Dictionary> {
        let terms = terms.list().iter();
        terms.map(|term| self.dictionary(term)).collect()
    }

    fn dictionary(&self, term: &Value) -> Dictionary {
        let name = &self.instance.function;
        match only_form(term) {
            Some(("Given", number)) => at(&self.instance.given, number)
                .unwrap_or_else(|| panic!("{name} has no bound {number:?}")),
            Some(("Impl", Value::List(parts))) => {
                let [named, _, given] = parts.as_slice() else {
                    panic!("not an impl: {parts:?}");
                };
                let found = self.impls.iter().find(|it| it.get("name") == named);
                let found = found.unwrap_or_else(|| panic!("{name} has no impl {named:?}"));
                let methods = found.get("methods").list().iter();
                Dictionary {
                    of: found.get("of").get("of").text().into(),
                    methods: methods.map(|method| method.text().into()).collect(),
                    given: self.dictionaries(given),
                }
            }
            _ => panic!("not a known dictionary of MIR: {term:?}"),
        }
    }
}

/// The item of this number.
fn at<T: Clone>(items: &[T], number: &Value) -> Option<T> {
    let number = usize::try_from(number.number()).ok()?;
    items.get(number).cloned()
}

/// The form of a term, and what it holds.
fn only_form(term: &Value) -> Option<(&str, &Value)> {
    match term {
        Value::Object(forms) => match forms.as_slice() {
            [(form, parts)] => Some((form, parts)),
            _ => None,
        },
        _ => None,
    }
}

/// The division that an operation is, if it is one.
fn division(operation: &Value, operands: &[Value], numbers: &Numbers) -> Option<Division> {
    let name = match (operation, only_form(operation)) {
        (Value::Text(name), _) => name,
        (_, Some((name, _))) => name,
        _ => panic!("not an operation: {operation:?}"),
    };
    match (name, operands) {
        ("Div" | "Rem", [_, divisor]) => Some(Division {
            operation: name.to_lowercase(),
            by: constant(divisor, numbers),
        }),
        (name, _) if is_among(OPERATIONS, name) => None,
        _ => panic!("not a known operation of MIR: {operation:?}"),
    }
}

fn is_among(names: &str, name: &str) -> bool {
    names.split_whitespace().any(|it| it == name)
}

fn constant(operand: &Value, numbers: &Numbers) -> Option<u64> {
    match only_form(operand) {
        Some(("Int", parts)) => Some(parts.get("value").number()),
        Some(("NumOf", Value::List(parts))) => number(parts.last()?, numbers),
        _ => None,
    }
}

/// The number that stands in a type's place: a constant, or that of a const parameter.
fn number(ty: &Value, numbers: &Numbers) -> Option<u64> {
    match only_form(ty) {
        Some(("Const", constant @ Value::Number(_))) => Some(constant.number()),
        Some(("Param", parameter)) => at(numbers, parameter).flatten(),
        _ => None,
    }
}
