//! A reader of the JSON that lines are.

/// A value, as far as lines have it: texts are UTF-16 units.
#[derive(Clone, Debug, PartialEq)]
pub enum Json {
    Null,
    Bool(bool),
    Number(i64),
    Text(Vec<u16>),
    List(Vec<Json>),
    Object(Vec<(String, Json)>),
}

impl Json {
    pub fn number(&self) -> u32 {
        match self {
            Json::Number(it) => u32::try_from(*it).expect("a number of an argument"),
            other => panic!("{other:?} is no number"),
        }
    }

    pub fn maybe_number(&self) -> Option<u32> {
        (*self != Json::Null).then(|| self.number())
    }

    pub fn bool(&self) -> bool {
        matches!(self, Json::Bool(true))
    }

    pub fn string(&self) -> String {
        match self {
            Json::Text(it) => String::from_utf16(it).expect("a name is well-formed"),
            other => panic!("{other:?} is no string"),
        }
    }

    /// The units of a text, which is a string or a list of them; of null none.
    pub fn units(&self) -> Vec<u16> {
        match self {
            Json::Text(it) => it.clone(),
            Json::List(items) => items.iter().map(|it| it.number() as u16).collect(),
            _ => Vec::new(),
        }
    }

    pub fn list(&self) -> &[Json] {
        match self {
            Json::List(items) => items,
            other => panic!("{other:?} is no list"),
        }
    }

    /// A member of an object; the last of that name.
    pub fn member(&self, name: &str) -> Option<&Json> {
        match self {
            Json::Object(members) => members.iter().rev().find(|it| it.0 == name).map(|it| &it.1),
            other => panic!("{other:?} is no object"),
        }
    }

    pub fn text(text: &str) -> Json {
        Json::Text(text.encode_utf16().collect())
    }

    /// A text as replies have it: a string where it is well-formed, or else the list of its units.
    pub fn of_units(units: &[u16]) -> Json {
        if String::from_utf16(units).is_ok() {
            return Json::Text(units.to_vec());
        }
        Json::List(units.iter().map(|it| Json::Number((*it).into())).collect())
    }
}

struct Reader<'a> {
    text: &'a [u8],
    at: usize,
}

/// Reads a line that is JSON.
pub fn read(line: &[u8]) -> Json {
    let mut reader = Reader { text: line, at: 0 };
    let found = reader.value();
    reader.space();
    assert_eq!(reader.at, line.len(), "a whole line is read");
    found
}

impl Reader<'_> {
    fn space(&mut self) {
        while matches!(self.text.get(self.at), Some(b' ' | b'\t' | b'\r' | b'\n')) {
            self.at += 1;
        }
    }

    /// Whether that sign comes next, which is then read.
    fn takes(&mut self, sign: u8) -> bool {
        self.space();
        let found = self.text.get(self.at) == Some(&sign);
        self.at += usize::from(found);
        found
    }

    fn word(&mut self, word: &str, value: Json) -> Json {
        assert!(self.text[self.at..].starts_with(word.as_bytes()));
        self.at += word.len();
        value
    }

    fn value(&mut self) -> Json {
        self.space();
        match self.text[self.at] {
            b'n' => self.word("null", Json::Null),
            b't' => self.word("true", Json::Bool(true)),
            b'f' => self.word("false", Json::Bool(false)),
            b'"' => Json::Text(self.string()),
            b'[' => self.items(),
            b'{' => self.members(),
            _ => self.digits(),
        }
    }

    fn digits(&mut self) -> Json {
        let rest = &self.text[self.at..];
        let count = rest.iter().take_while(|it| **it == b'-' || it.is_ascii_digit()).count();
        self.at += count;
        let digits = std::str::from_utf8(&rest[..count]).unwrap();
        Json::Number(digits.parse().expect("a whole number"))
    }

    fn items(&mut self) -> Json {
        let mut items = Vec::new();
        self.at += 1;
        while !self.takes(b']') {
            items.push(self.value());
            self.takes(b',');
        }
        Json::List(items)
    }

    fn members(&mut self) -> Json {
        let mut members = Vec::new();
        self.at += 1;
        while !self.takes(b'}') {
            self.space();
            let name = String::from_utf16(&self.string()).unwrap();
            assert!(self.takes(b':'));
            members.push((name, self.value()));
            self.takes(b',');
        }
        Json::Object(members)
    }

    fn string(&mut self) -> Vec<u16> {
        let mut units = Vec::new();
        self.at += 1;
        loop {
            let rest = &self.text[self.at..];
            let plain = rest.iter().take_while(|it| **it != b'"' && **it != b'\\').count();
            units.extend(std::str::from_utf8(&rest[..plain]).expect("UTF-8").encode_utf16());
            self.at += plain + 1;
            if rest[plain] == b'"' {
                return units;
            }
            units.push(self.escape());
        }
    }

    fn escape(&mut self) -> u16 {
        let sign = self.text[self.at];
        self.at += 1;
        match sign {
            b'b' => 8,
            b'f' => 12,
            b'n' => 10,
            b'r' => 13,
            b't' => 9,
            b'u' => {
                let digits = std::str::from_utf8(&self.text[self.at..self.at + 4]).unwrap();
                self.at += 4;
                u16::from_str_radix(digits, 16).expect("four digits")
            }
            other => other.into(),
        }
    }
}
