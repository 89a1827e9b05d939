//! As much of JSON as the browser's driver speaks.

#[derive(Clone, Debug, PartialEq)]
pub enum Json {
    Null,
    Bool(bool),
    Number(f64),
    Text(String),
    List(Vec<Json>),
    Object(Vec<(String, Json)>),
}

impl Json {
    pub fn parse(text: &str) -> Option<Json> {
        let mut reader = Reader { bytes: text.as_bytes(), at: 0 };
        let value = reader.value()?;
        reader.skip_spaces();
        (reader.at == text.len()).then_some(value)
    }

    /// The value of a key, null where there is none.
    pub fn get(&self, key: &str) -> &Json {
        match self {
            Json::Object(pairs) => pairs.iter().find(|(name, _)| name == key).map_or(&Json::Null, |(_, value)| value),
            _ => &Json::Null,
        }
    }

    pub fn text(&self) -> &str {
        match self {
            Json::Text(text) => text,
            _ => panic!("no text: {self:?}"),
        }
    }

    pub fn number(&self) -> f64 {
        match self {
            Json::Number(number) => *number,
            _ => panic!("no number: {self:?}"),
        }
    }

    pub fn is_true(&self) -> bool {
        *self == Json::Bool(true)
    }

    pub fn list(&self) -> &[Json] {
        match self {
            Json::List(values) => values,
            _ => panic!("no list: {self:?}"),
        }
    }
}

/// A text in quotes.
pub fn quoted(text: &str) -> String {
    let mut out = String::from("\"");
    for character in text.chars() {
        match character {
            '"' | '\\' => out.extend(['\\', character]),
            ' '.. => out.push(character),
            _ => out.push_str(&format!("\\u{:04x}", character as u32)),
        }
    }
    out + "\""
}

struct Reader<'a> {
    bytes: &'a [u8],
    at: usize,
}

impl Reader<'_> {
    fn skip_spaces(&mut self) {
        while self.bytes.get(self.at).is_some_and(u8::is_ascii_whitespace) {
            self.at += 1;
        }
    }

    fn next_is(&mut self, byte: u8) -> bool {
        self.skip_spaces();
        let is = self.bytes.get(self.at) == Some(&byte);
        self.at += usize::from(is);
        is
    }

    fn value(&mut self) -> Option<Json> {
        self.skip_spaces();
        match self.bytes.get(self.at)? {
            b'{' => self.object(),
            b'[' => self.list(),
            b'"' => self.text().map(Json::Text),
            b't' => self.word("true", Json::Bool(true)),
            b'f' => self.word("false", Json::Bool(false)),
            b'n' => self.word("null", Json::Null),
            _ => self.number(),
        }
    }

    fn word(&mut self, word: &str, value: Json) -> Option<Json> {
        let found = self.bytes[self.at..].starts_with(word.as_bytes());
        self.at += word.len();
        found.then_some(value)
    }

    fn number(&mut self) -> Option<Json> {
        let is_part = |byte: &&u8| matches!(**byte, b'0'..=b'9' | b'+' | b'-' | b'.' | b'e' | b'E');
        let length = self.bytes[self.at..].iter().take_while(is_part).count();
        let digits = std::str::from_utf8(&self.bytes[self.at..self.at + length]).ok()?;
        self.at += length;
        digits.parse().ok().map(Json::Number)
    }

    fn list(&mut self) -> Option<Json> {
        let mut values = Vec::new();
        self.at += 1;
        if self.next_is(b']') {
            return Some(Json::List(values));
        }
        loop {
            values.push(self.value()?);
            if self.next_is(b']') {
                return Some(Json::List(values));
            }
            if !self.next_is(b',') {
                return None;
            }
        }
    }

    fn object(&mut self) -> Option<Json> {
        let mut pairs = Vec::new();
        self.at += 1;
        if self.next_is(b'}') {
            return Some(Json::Object(pairs));
        }
        loop {
            self.skip_spaces();
            let key = self.text()?;
            if !self.next_is(b':') {
                return None;
            }
            pairs.push((key, self.value()?));
            if self.next_is(b'}') {
                return Some(Json::Object(pairs));
            }
            if !self.next_is(b',') {
                return None;
            }
        }
    }

    fn text(&mut self) -> Option<String> {
        let mut out = Vec::new();
        self.at += 1;
        loop {
            let byte = *self.bytes.get(self.at)?;
            self.at += 1;
            match byte {
                b'"' => return String::from_utf8(out).ok(),
                b'\\' => self.escape(&mut out)?,
                _ => out.push(byte),
            }
        }
    }

    fn escape(&mut self, out: &mut Vec<u8>) -> Option<()> {
        let byte = *self.bytes.get(self.at)?;
        self.at += 1;
        match byte {
            b'n' => out.push(b'\n'),
            b't' => out.push(b'\t'),
            b'r' => out.push(b'\r'),
            b'b' => out.push(8),
            b'f' => out.push(12),
            b'u' => {
                let digits = std::str::from_utf8(self.bytes.get(self.at..self.at + 4)?).ok()?;
                let unit = u32::from_str_radix(digits, 16).ok()?;
                self.at += 4;
                // Half of a pair is not needed here.
                let character = char::from_u32(unit).unwrap_or('\u{fffd}');
                out.extend(character.to_string().bytes());
            }
            other => out.push(other),
        }
        Some(())
    }
}

#[test]
fn values() {
    let text = r#" {"a": [1, -2.5e1, true, null, "x\"\\\u00e9\n"], "b": {}, "c": [] } "#;
    let value = Json::parse(text).expect("good JSON");
    let list = value.get("a").list();
    assert_eq!((list[0].number(), list[1].number(), list[2].is_true()), (1.0, -25.0, true));
    assert_eq!((&list[3], list[4].text()), (&Json::Null, "x\"\\é\n"));
    assert_eq!((value.get("c").list().len(), value.get("d")), (0, &Json::Null));
    assert_eq!(Json::parse("[1,"), None);
    assert_eq!(Json::parse(&quoted("a\"\\\n✗")), Some(Json::Text("a\"\\\n✗".to_string())));
}
