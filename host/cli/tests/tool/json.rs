//! A strict reader of JSON, so that what the tool prints is held to the grammar.

#[derive(Clone, Debug, PartialEq)]
pub enum Json {
    Null,
    Flag(bool),
    Number(u64),
    Text(String),
    List(Vec<Json>),
    Object(Vec<(String, Json)>),
}

impl Json {
    pub fn parse(text: &str) -> Json {
        let mut reader = Reader {
            rest: text.chars().collect(),
        };
        let value = reader.value();
        reader.space();
        assert!(reader.rest.is_empty(), "more follows the value");
        value
    }

    /// The value under names with dots between them.
    pub fn at(&self, path: &str) -> &Json {
        path.split('.').fold(self, |value, name| match value {
            Json::Object(members) => {
                let member = members.iter().find(|(n, _)| n == name);
                &member
                    .unwrap_or_else(|| panic!("no '{name}' of '{path}'"))
                    .1
            }
            other => panic!("'{path}' leads through {other:?}"),
        })
    }

    pub fn names(&self) -> Vec<&str> {
        match self {
            Json::Object(members) => members.iter().map(|(name, _)| name.as_str()).collect(),
            other => panic!("no object: {other:?}"),
        }
    }
}

struct Reader {
    rest: std::collections::VecDeque<char>,
}

impl Reader {
    fn next(&mut self) -> char {
        self.rest.pop_front().expect("the text goes on")
    }

    fn space(&mut self) {
        while matches!(self.rest.front(), Some(' ' | '\n')) {
            self.next();
        }
    }

    /// Whether the character comes next; then it is passed.
    fn takes(&mut self, c: char) -> bool {
        self.space();
        let is_next = self.rest.front() == Some(&c);
        if is_next {
            self.next();
        }
        is_next
    }

    fn value(&mut self) -> Json {
        self.space();
        match self.next() {
            '{' => Json::Object(self.members()),
            '[' => Json::List(self.values()),
            '"' => Json::Text(self.string()),
            'n' => self.word("ull", Json::Null),
            't' => self.word("rue", Json::Flag(true)),
            'f' => self.word("alse", Json::Flag(false)),
            digit => self.number(digit),
        }
    }

    fn word(&mut self, rest: &str, value: Json) -> Json {
        assert!(rest.chars().all(|c| self.next() == c), "a word is cut");
        value
    }

    fn number(&mut self, first: char) -> Json {
        let mut digits = first.to_string();
        while self.rest.front().is_some_and(char::is_ascii_digit) {
            digits.push(self.next());
        }
        assert!(first != '0' || digits.len() == 1, "a number begins with 0");
        Json::Number(digits.parse().expect("a number"))
    }

    fn members(&mut self) -> Vec<(String, Json)> {
        let mut members: Vec<(String, Json)> = Vec::new();
        while !self.takes('}') {
            assert!(members.is_empty() || self.takes(','), "a comma is missing");
            assert!(self.takes('"'), "a name is missing");
            let name = self.string();
            assert!(self.takes(':'), "a colon is missing");
            assert!(members.iter().all(|(n, _)| *n != name), "'{name}' twice");
            members.push((name, self.value()));
        }
        members
    }

    fn values(&mut self) -> Vec<Json> {
        let mut values = Vec::new();
        while !self.takes(']') {
            assert!(values.is_empty() || self.takes(','), "a comma is missing");
            values.push(self.value());
        }
        values
    }

    fn string(&mut self) -> String {
        let mut text = String::new();
        loop {
            match self.next() {
                '"' => return text,
                '\\' => text.push(self.escape()),
                c => {
                    assert!(!c.is_control(), "a control character is not escaped");
                    text.push(c);
                }
            }
        }
    }

    fn escape(&mut self) -> char {
        match self.next() {
            'u' => {
                let digits: String = (0..4).map(|_| self.next()).collect();
                let number = u32::from_str_radix(&digits, 16).expect("four digits");
                char::from_u32(number).expect("a character")
            }
            c @ ('"' | '\\') => c,
            c => panic!("an escape that is not used: {c}"),
        }
    }
}

#[test]
#[should_panic(expected = "a comma is missing")]
fn the_reader_is_strict() {
    Json::parse("{\"a\": 1 \"b\": 2}");
}
