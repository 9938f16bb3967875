//! A reader of JSON, strict enough to find what is not JSON.

use std::collections::BTreeMap;

#[derive(Clone, Debug, PartialEq)]
pub enum Json {
    Null,
    Bool(bool),
    Number(i64),
    Text(String),
    List(Vec<Json>),
    Object(BTreeMap<String, Json>),
}

impl Json {
    /// The whole text as one document.
    pub fn read(text: &str) -> Json {
        let mut reader = Reader {
            rest: text,
            whole: text,
        };
        let json = reader.value();
        reader.skip();
        assert!(reader.rest.is_empty(), "more behind: {}", reader.place());
        json
    }

    pub fn get(&self, name: &str) -> &Json {
        match self {
            Json::Object(fields) => fields.get(name).unwrap_or(&Json::Null),
            other => panic!("{other:?} has no {name}"),
        }
    }

    pub fn list(&self) -> &[Json] {
        match self {
            Json::List(list) => list,
            other => panic!("{other:?} is no list"),
        }
    }

    pub fn text(&self) -> &str {
        match self {
            Json::Text(text) => text,
            other => panic!("{other:?} is no text"),
        }
    }

    pub fn number(&self) -> i64 {
        match self {
            Json::Number(number) => *number,
            other => panic!("{other:?} is no number"),
        }
    }
}

struct Reader<'a> {
    rest: &'a str,
    whole: &'a str,
}

impl Reader<'_> {
    fn place(&self) -> String {
        let at = self.whole.len() - self.rest.len();
        let near: String = self.rest.chars().take(60).collect();
        format!("at byte {at}: {near}")
    }

    fn skip(&mut self) {
        self.rest = self.rest.trim_start_matches([' ', '\n', '\r', '\t']);
    }

    fn take(&mut self, word: &str) -> bool {
        self.skip();
        let rest = self.rest.strip_prefix(word);
        self.rest = rest.unwrap_or(self.rest);
        rest.is_some()
    }

    fn must(&mut self, word: &str) {
        assert!(self.take(word), "no `{word}` {}", self.place());
    }

    fn value(&mut self) -> Json {
        if self.take("null") {
            Json::Null
        } else if self.take("true") {
            Json::Bool(true)
        } else if self.take("false") {
            Json::Bool(false)
        } else if self.take("[") {
            Json::List(self.until("]", Reader::value))
        } else if self.take("{") {
            let fields = self.until("}", |reader| {
                let name = reader.string();
                reader.must(":");
                (name, reader.value())
            });
            let count = fields.len();
            let fields: BTreeMap<String, Json> = fields.into_iter().collect();
            assert_eq!(fields.len(), count, "a name twice {}", self.place());
            Json::Object(fields)
        } else if self.rest.starts_with('"') {
            Json::Text(self.string())
        } else {
            self.integer()
        }
    }

    fn until<T>(&mut self, end: &str, one: impl Fn(&mut Self) -> T) -> Vec<T> {
        let mut things = Vec::new();
        if self.take(end) {
            return things;
        }
        loop {
            things.push(one(self));
            if self.take(end) {
                return things;
            }
            self.must(",");
        }
    }

    fn integer(&mut self) -> Json {
        let end = self.rest.find(|c: char| !c.is_ascii_digit() && c != '-');
        let (word, rest) = self.rest.split_at(end.unwrap_or(self.rest.len()));
        let number = word.parse().ok();
        let number = number.unwrap_or_else(|| panic!("no value {}", self.place()));
        self.rest = rest;
        Json::Number(number)
    }

    fn string(&mut self) -> String {
        self.must("\"");
        let mut text = String::new();
        let mut chars = self.rest.chars();
        loop {
            match chars.next() {
                Some('"') => break,
                Some('\\') => text.push(escaped(&mut chars)),
                Some(c) if c >= ' ' => text.push(c),
                other => panic!("{other:?} in a string {}", self.place()),
            }
        }
        self.rest = chars.as_str();
        text
    }
}

fn escaped(chars: &mut std::str::Chars) -> char {
    match chars.next() {
        Some(c @ ('"' | '\\' | '/')) => c,
        Some('n') => '\n',
        Some('t') => '\t',
        Some('r') => '\r',
        Some('b') => '\u{8}',
        Some('f') => '\u{c}',
        Some('u') => {
            let digits: String = chars.take(4).collect();
            let code = u32::from_str_radix(&digits, 16).expect("four digits");
            char::from_u32(code).expect("a character by itself")
        }
        other => panic!("an escape of {other:?}"),
    }
}
