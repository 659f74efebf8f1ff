//! As much JSON as the test cases need.
use std::collections::BTreeMap;

#[derive(Debug, Clone, PartialEq)]
pub enum Json {
    Null,
    Bool(bool),
    Number(u64),
    Text(String),
    List(Vec<Json>),
    Object(BTreeMap<String, Json>),
}

pub fn read(text: &str) -> Json {
    let mut r = Reader { s: text.as_bytes(), i: 0 };
    r.value()
}

struct Reader<'a> {
    s: &'a [u8],
    i: usize,
}

impl Reader<'_> {
    fn skip(&mut self) {
        while self.i < self.s.len() && b" \t\r\n,:".contains(&self.s[self.i]) {
            self.i += 1;
        }
    }
    fn text(&mut self) -> String {
        let mut found = Vec::new();
        self.i += 1;
        while self.s[self.i] != b'"' {
            if self.s[self.i] == b'\\' {
                self.i += 1;
                if self.s[self.i] == b'u' {
                    self.i += 4;
                }
            }
            found.push(self.s[self.i]);
            self.i += 1;
        }
        self.i += 1;
        String::from_utf8_lossy(&found).into_owned()
    }
    fn value(&mut self) -> Json {
        self.skip();
        match self.s[self.i] {
            b'"' => Json::Text(self.text()),
            b'{' => {
                self.i += 1;
                let mut all = BTreeMap::new();
                loop {
                    self.skip();
                    if self.s[self.i] == b'}' {
                        self.i += 1;
                        return Json::Object(all);
                    }
                    let key = self.text();
                    let value = self.value();
                    all.insert(key, value);
                }
            }
            b'[' => {
                self.i += 1;
                let mut all = Vec::new();
                loop {
                    self.skip();
                    if self.s[self.i] == b']' {
                        self.i += 1;
                        return Json::List(all);
                    }
                    all.push(self.value());
                }
            }
            b'n' => {
                self.i += 4;
                Json::Null
            }
            b't' => {
                self.i += 4;
                Json::Bool(true)
            }
            b'f' => {
                self.i += 5;
                Json::Bool(false)
            }
            _ => {
                let start = self.i;
                while self.i < self.s.len() && self.s[self.i].is_ascii_digit() {
                    self.i += 1;
                }
                Json::Number(std::str::from_utf8(&self.s[start..self.i]).unwrap().parse().unwrap())
            }
        }
    }
}

impl Json {
    /// A field; null where there is none.
    pub fn get(&self, key: &str) -> &Json {
        match self {
            Json::Object(all) => all.get(key).unwrap_or(&Json::Null),
            _ => &Json::Null,
        }
    }
    pub fn list(&self) -> &[Json] {
        match self {
            Json::List(all) => all,
            _ => &[],
        }
    }
    pub fn number(&self) -> u64 {
        match self {
            Json::Number(n) => *n,
            _ => panic!("no number: {self:?}"),
        }
    }
    pub fn text(&self) -> &str {
        match self {
            Json::Text(t) => t,
            _ => panic!("no text: {self:?}"),
        }
    }
    /// Bytes in hexadecimal.
    pub fn bytes(&self) -> Vec<u8> {
        let t = self.text();
        (0..t.len() / 2).map(|i| u8::from_str_radix(&t[2 * i..2 * i + 2], 16).unwrap()).collect()
    }
}
