//! A JSON reader that takes what RFC 8259 has and nothing else, but for numbers, which are whole.

use std::iter::Peekable;
use std::str::Chars;

#[derive(Clone, PartialEq, Eq, Debug)]
pub enum Value {
    Null,
    Bool(bool),
    Number(u128),
    Text(String),
    List(Vec<Value>),
    Object(Vec<(String, Value)>),
}

impl Value {
    /// The value of a whole text, which ends with a newline.
    pub fn of(text: &str) -> Self {
        let mut reader = Reader {
            rest: text.chars().peekable(),
        };
        let value = reader.value();
        let is_all = reader.rest.eq("\n".chars());
        match value {
            Some(value) if is_all => value,
            _ => panic!("no JSON: {text}"),
        }
    }

    pub fn get(&self, name: &str) -> &Self {
        let fields = match self {
            Self::Object(fields) => fields.as_slice(),
            _ => &[],
        };
        let field = fields.iter().find(|(it, _)| it == name);
        &field.unwrap_or_else(|| panic!("no {name}: {self:?}")).1
    }

    pub fn text(&self) -> &str {
        match self {
            Self::Text(text) => text,
            _ => panic!("no text: {self:?}"),
        }
    }

    pub fn number(&self) -> u64 {
        match self {
            Self::Number(number) => u64::try_from(*number).expect("a number of 64 bits"),
            _ => panic!("no number: {self:?}"),
        }
    }

    pub fn list(&self) -> &[Self] {
        match self {
            Self::List(items) => items,
            _ => panic!("no list: {self:?}"),
        }
    }

    pub fn into_list(self) -> Vec<Self> {
        match self {
            Self::List(items) => items,
            _ => panic!("no list: {self:?}"),
        }
    }

    pub fn bool(&self) -> bool {
        match self {
            Self::Bool(is_true) => *is_true,
            _ => panic!("neither true nor false: {self:?}"),
        }
    }

    /// The value, unless it is null.
    pub fn given(&self) -> Option<&Self> {
        (*self != Self::Null).then_some(self)
    }

    /// A word in eight hexadecimal digits.
    pub fn word(&self) -> u32 {
        let text = self.text();
        let word = u32::from_str_radix(text, 16);
        word.unwrap_or_else(|error| panic!("{text}: {error}"))
    }
}

struct Reader<'a> {
    rest: Peekable<Chars<'a>>,
}

impl Reader<'_> {
    fn value(&mut self) -> Option<Value> {
        match self.rest.peek()? {
            '{' => self.items('{', '}', Self::field).map(Value::Object),
            '[' => self.items('[', ']', Self::value).map(Value::List),
            '"' => self.string().map(Value::Text),
            '0'..='9' => self.number(),
            _ => self.word(),
        }
    }

    fn spaces(&mut self) {
        while self
            .rest
            .next_if(|letter| " \t\r\n".contains(*letter))
            .is_some()
        {}
    }

    fn takes(&mut self, wanted: char) -> Option<char> {
        self.rest.next_if_eq(&wanted)
    }

    /// Items with commas between them.
    fn items<T>(
        &mut self,
        open: char,
        close: char,
        item: fn(&mut Self) -> Option<T>,
    ) -> Option<Vec<T>> {
        self.takes(open)?;
        self.spaces();
        let mut items = Vec::new();
        if self.takes(close).is_some() {
            return Some(items);
        }
        loop {
            self.spaces();
            items.push(item(self)?);
            self.spaces();
            if self.takes(close).is_some() {
                return Some(items);
            }
            self.takes(',')?;
        }
    }

    fn field(&mut self) -> Option<(String, Value)> {
        let name = self.string()?;
        self.spaces();
        self.takes(':')?;
        self.spaces();
        Some((name, self.value()?))
    }

    fn string(&mut self) -> Option<String> {
        self.takes('"')?;
        let mut text = String::new();
        loop {
            match self.rest.next()? {
                '"' => return Some(text),
                '\\' => text.push(self.escaped()?),
                letter if letter < ' ' => return None,
                letter => text.push(letter),
            }
        }
    }

    fn escaped(&mut self) -> Option<char> {
        match self.rest.next()? {
            letter @ ('"' | '\\' | '/') => Some(letter),
            'n' => Some('\n'),
            't' => Some('\t'),
            'r' => Some('\r'),
            'b' => Some('\u{8}'),
            'f' => Some('\u{c}'),
            'u' => {
                let digits: String = self.rest.by_ref().take(4).collect();
                char::from_u32(u32::from_str_radix(&digits, 16).ok()?)
            }
            _ => None,
        }
    }

    fn number(&mut self) -> Option<Value> {
        let mut digits = String::new();
        while let Some(digit) = self.rest.next_if(char::is_ascii_digit) {
            digits.push(digit);
        }
        let is_short = digits == "0" || !digits.starts_with('0');
        let number = digits.parse().ok().filter(|_| is_short)?;
        Some(Value::Number(number))
    }

    fn word(&mut self) -> Option<Value> {
        let mut word = String::new();
        while let Some(letter) = self.rest.next_if(char::is_ascii_alphabetic) {
            word.push(letter);
        }
        match word.as_str() {
            "null" => Some(Value::Null),
            "true" => Some(Value::Bool(true)),
            "false" => Some(Value::Bool(false)),
            _ => None,
        }
    }
}
