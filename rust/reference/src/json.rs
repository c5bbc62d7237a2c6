//! As much JSON as the published data needs: no escapes but `\n`, and whole
//! numbers only.

use std::collections::HashMap;

#[derive(Clone, Debug, PartialEq)]
pub enum Value {
    Null,
    Truth(bool),
    Number(u64),
    Text(String),
    List(Vec<Value>),
    Record(HashMap<String, Value>),
}

impl Value {
    pub fn field(&self, name: &str) -> &Value {
        match self {
            Value::Record(fields) => fields.get(name).unwrap_or(&Value::Null),
            _ => panic!("no record with a field {name}"),
        }
    }

    pub fn list(&self) -> &[Value] {
        match self {
            Value::List(items) => items,
            _ => panic!("{self:?} is no list"),
        }
    }

    pub fn number(&self) -> u64 {
        match self {
            Value::Number(number) => *number,
            Value::Text(text) => text.parse().expect("a number as text"),
            _ => panic!("{self:?} is no number"),
        }
    }

    pub fn text(&self) -> &str {
        match self {
            Value::Text(text) => text,
            _ => panic!("{self:?} is no text"),
        }
    }
}

/// The value of a whole file.
pub fn parse(text: &str) -> Value {
    let mut reader = Reader { rest: text.trim() };
    let value = reader.value();
    assert!(reader.rest.is_empty(), "more text after the value");
    value
}

struct Reader<'a> {
    rest: &'a str,
}

impl Reader<'_> {
    /// Skips a token if it comes next.
    fn skip(&mut self, token: &str) -> bool {
        self.rest = self.rest.trim_start();
        match self.rest.strip_prefix(token) {
            Some(rest) => {
                self.rest = rest;
                true
            }
            None => false,
        }
    }

    fn expect(&mut self, token: &str) {
        assert!(self.skip(token), "{token} is missing");
    }

    fn value(&mut self) -> Value {
        if self.skip("null") {
            Value::Null
        } else if self.skip("true") {
            Value::Truth(true)
        } else if self.skip("false") {
            Value::Truth(false)
        } else if self.skip("\"") {
            Value::Text(self.text())
        } else if self.skip("[") {
            Value::List(self.items("]", Reader::value))
        } else if self.skip("{") {
            Value::Record(self.items("}", Reader::field).into_iter().collect())
        } else {
            self.number()
        }
    }

    fn items<T>(&mut self, end: &str, item: fn(&mut Self) -> T) -> Vec<T> {
        let mut items = Vec::new();
        while !self.skip(end) {
            if !items.is_empty() {
                self.expect(",");
            }
            items.push(item(self));
        }
        items
    }

    fn field(&mut self) -> (String, Value) {
        self.expect("\"");
        let name = self.text();
        self.expect(":");
        (name, self.value())
    }

    /// The rest of a text whose first quote was read.
    fn text(&mut self) -> String {
        let (text, rest) = self.rest.split_once('"').expect("a closing quote");
        self.rest = rest;
        text.replace("\\n", "\n")
    }

    fn number(&mut self) -> Value {
        let digits = |c: char| c.is_ascii_digit();
        let end = self.rest.find(|c| !digits(c)).unwrap_or(self.rest.len());
        let (number, rest) = self.rest.split_at(end);
        self.rest = rest;
        Value::Number(number.parse().expect("a whole number"))
    }
}
