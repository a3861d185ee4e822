//! A small reader of JSON text, enough for data/published-nets.json.

#[derive(Clone, Debug, PartialEq)]
pub enum Json {
    Null,
    Yes(bool),
    Number(i64),
    Text(String),
    List(Vec<Json>),
    Record(Vec<(String, Json)>),
}

impl Json {
    /// The field of a record; Null if there is none.
    pub fn get(&self, name: &str) -> &Json {
        match self {
            Json::Record(fields) => fields.iter().find(|(n, _)| n == name).map_or(&Json::Null, |(_, v)| v),
            _ => &Json::Null,
        }
    }

    pub fn list(&self) -> &[Json] {
        match self {
            Json::List(items) => items,
            _ => &[],
        }
    }

    pub fn number(&self) -> i64 {
        match self {
            Json::Number(n) => *n,
            other => panic!("not a number: {other:?}"),
        }
    }

    pub fn text(&self) -> &str {
        match self {
            Json::Text(t) => t,
            other => panic!("not a text: {other:?}"),
        }
    }

    pub fn numbers(&self) -> Vec<u16> {
        self.list().iter().map(|n| n.number() as u16).collect()
    }
}

pub fn parse(text: &str) -> Json {
    let mut reader = Reader { text: text.as_bytes(), at: 0 };
    let value = reader.value();
    reader.blanks();
    assert_eq!(reader.at, reader.text.len(), "text after the value");
    value
}

struct Reader<'a> {
    text: &'a [u8],
    at: usize,
}

impl Reader<'_> {
    fn blanks(&mut self) {
        while self.text.get(self.at).is_some_and(|c| c.is_ascii_whitespace()) {
            self.at += 1;
        }
    }

    fn next(&mut self) -> u8 {
        self.blanks();
        self.text[self.at]
    }

    fn take(&mut self, c: u8) {
        assert_eq!(self.next() as char, c as char, "at byte {}", self.at);
        self.at += 1;
    }

    fn word(&mut self, word: &str, value: Json) -> Json {
        assert!(self.text[self.at..].starts_with(word.as_bytes()), "at byte {}", self.at);
        self.at += word.len();
        value
    }

    fn value(&mut self) -> Json {
        match self.next() {
            b'n' => self.word("null", Json::Null),
            b't' => self.word("true", Json::Yes(true)),
            b'f' => self.word("false", Json::Yes(false)),
            b'"' => Json::Text(self.string()),
            b'[' => Json::List(self.items(b'[', b']', |r| r.value())),
            b'{' => Json::Record(self.items(b'{', b'}', |r| {
                r.blanks();
                let name = r.string();
                r.take(b':');
                (name, r.value())
            })),
            _ => self.digits(),
        }
    }

    fn items<T>(&mut self, open: u8, close: u8, mut item: impl FnMut(&mut Self) -> T) -> Vec<T> {
        self.take(open);
        let mut items = Vec::new();
        while self.next() != close {
            if !items.is_empty() {
                self.take(b',');
            }
            items.push(item(self));
        }
        self.take(close);
        items
    }

    fn digits(&mut self) -> Json {
        let from = self.at;
        while self.text.get(self.at).is_some_and(|c| c.is_ascii_digit() || *c == b'-') {
            self.at += 1;
        }
        let digits = std::str::from_utf8(&self.text[from..self.at]).unwrap();
        Json::Number(digits.parse().unwrap_or_else(|_| panic!("no value at byte {from}")))
    }

    /// A text; of the escapes only those of one character.
    fn string(&mut self) -> String {
        self.take(b'"');
        let mut bytes = Vec::new();
        loop {
            let c = self.text[self.at];
            self.at += 1;
            match c {
                b'"' => return String::from_utf8(bytes).unwrap(),
                b'\\' => {
                    let escaped = match self.text[self.at] {
                        b'n' => b'\n',
                        b't' => b'\t',
                        c @ (b'"' | b'\\' | b'/') => c,
                        c => panic!("escape {} not known", c as char),
                    };
                    bytes.push(escaped);
                    self.at += 1;
                }
                c => bytes.push(c),
            }
        }
    }
}

#[cfg(test)]
mod tests {
    use super::*;

    #[test]
    fn reads_values() {
        let value = parse(r#" {"a": [1, -2, null], "b": {"c": "x\"y", "d": true}, "e": []} "#);
        assert_eq!(value.get("a").list()[1].number(), -2);
        assert_eq!(value.get("b").get("c").text(), "x\"y");
        assert_eq!(value.get("b").get("d"), &Json::Yes(true));
        assert!(value.get("e").list().is_empty());
        assert_eq!(value.get("f"), &Json::Null);
    }
}
