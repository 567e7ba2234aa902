//! A strict reader of JSON, to hold what is written against.

use std::iter::Peekable;
use std::str::Chars;

#[derive(Clone, Debug, PartialEq)]
pub enum Value {
    Null,
    Bool(bool),
    Number(i128),
    Text(String),
    List(Vec<Value>),
    Object(Vec<(String, Value)>),
}

impl Value {
    /// The field of an object, which must be there.
    pub fn get(&self, name: &str) -> &Value {
        match self {
            Value::Object(fields) => {
                let found = fields.iter().find(|(field, _)| field == name);
                &found.unwrap_or_else(|| panic!("{name} in {self:?}")).1
            }
            _ => panic!("{self:?} is no object"),
        }
    }

    pub fn names(&self) -> Vec<&str> {
        match self {
            Value::Object(fields) => fields.iter().map(|(name, _)| name.as_str()).collect(),
            _ => panic!("{self:?} is no object"),
        }
    }

    pub fn list(&self) -> &[Value] {
        match self {
            Value::List(items) => items,
            _ => panic!("{self:?} is no list"),
        }
    }

    pub fn text(&self) -> &str {
        match self {
            Value::Text(text) => text,
            _ => panic!("{self:?} is no text"),
        }
    }

    pub fn number(&self) -> u64 {
        u64::try_from(self.signed()).unwrap()
    }

    pub fn signed(&self) -> i128 {
        match self {
            Value::Number(number) => *number,
            _ => panic!("{self:?} is no number"),
        }
    }
}

/// One value and nothing behind it.
pub fn read(source: &str) -> Value {
    let mut rest = source.chars().peekable();
    let value = value(&mut rest);
    assert_eq!(rest.next(), None, "{source}");
    value
}

/// A value on a line of its own.
pub fn read_line(output: &str) -> Value {
    let line = output.strip_suffix('\n').unwrap();
    assert!(!line.contains('\n'), "{line}");
    read(line)
}

type Rest<'s> = Peekable<Chars<'s>>;

fn value(rest: &mut Rest) -> Value {
    match rest.peek().unwrap() {
        '{' => Value::Object(items(rest, '{', '}', |rest| {
            let name = string(rest);
            assert_eq!(rest.next(), Some(':'));
            (name, value(rest))
        })),
        '[' => Value::List(items(rest, '[', ']', value)),
        '"' => Value::Text(string(rest)),
        'n' => word(rest, "null", Value::Null),
        't' => word(rest, "true", Value::Bool(true)),
        'f' => word(rest, "false", Value::Bool(false)),
        _ => number(rest),
    }
}

fn items<T>(rest: &mut Rest, open: char, close: char, item: fn(&mut Rest) -> T) -> Vec<T> {
    assert_eq!(rest.next(), Some(open));
    let mut items = Vec::new();
    if rest.next_if_eq(&close).is_some() {
        return items;
    }
    loop {
        items.push(item(rest));
        match rest.next() {
            Some(',') => {}
            Some(end) if end == close => return items,
            other => panic!("{other:?} in a list"),
        }
    }
}

fn word(rest: &mut Rest, word: &str, value: Value) -> Value {
    assert!(word.chars().all(|due| rest.next() == Some(due)));
    value
}

fn number(rest: &mut Rest) -> Value {
    let sign = if rest.next_if_eq(&'-').is_some() {
        -1
    } else {
        1
    };
    let mut digits = String::new();
    while let Some(digit) = rest.next_if(char::is_ascii_digit) {
        digits.push(digit);
    }
    assert!(digits == "0" || !digits.starts_with('0'), "{digits}");
    Value::Number(sign * digits.parse::<i128>().unwrap())
}

fn string(rest: &mut Rest) -> String {
    assert_eq!(rest.next(), Some('"'));
    let mut text = String::new();
    loop {
        match rest.next().unwrap() {
            '"' => return text,
            '\\' => text.push(escaped(rest)),
            character => {
                assert!(!character.is_control(), "{character:?} stands bare");
                text.push(character);
            }
        }
    }
}

fn escaped(rest: &mut Rest) -> char {
    match rest.next().unwrap() {
        'n' => '\n',
        'r' => '\r',
        't' => '\t',
        'u' => {
            let digits: String = rest.take(4).collect();
            char::from_u32(u32::from_str_radix(&digits, 16).unwrap()).unwrap()
        }
        character @ ('"' | '\\' | '/') => character,
        other => panic!("\\{other}"),
    }
}
