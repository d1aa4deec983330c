//! A small reader of json, which takes nothing that is not json.

#[derive(Clone, Debug, PartialEq)]
pub enum Json {
    Null,
    Truth(bool),
    Number(u64),
    Text(String),
    List(Vec<Json>),
    Object(Vec<(String, Json)>),
}

impl Json {
    /// The whole text is one value.
    pub fn read(text: &str) -> Json {
        let mut reader = Reader { rest: text };
        let json = reader.value();
        reader.blanks();
        assert_eq!(reader.rest, "", "nothing follows");
        json
    }

    /// The value of an object's key.
    pub fn at(&self, key: &str) -> &Json {
        match self {
            Json::Object(pairs) => &pairs.iter().find(|(name, _)| name == key).unwrap_or_else(|| panic!("{self:?} has {key}")).1,
            other => panic!("{other:?} is no object"),
        }
    }

    pub fn list(&self) -> &[Json] {
        match self {
            Json::List(list) => list,
            other => panic!("{other:?} is no list"),
        }
    }

    pub fn text(&self) -> &str {
        match self {
            Json::Text(text) => text,
            other => panic!("{other:?} is no text"),
        }
    }

    /// A list of texts.
    pub fn texts(&self) -> Vec<&str> {
        self.list().iter().map(Json::text).collect()
    }
}

struct Reader<'a> {
    rest: &'a str,
}

impl<'a> Reader<'a> {
    fn blanks(&mut self) {
        self.rest = self.rest.trim_start_matches([' ', '\n']);
    }

    /// Takes what comes next, if it is this.
    fn takes(&mut self, sign: &str) -> bool {
        self.blanks();
        let rest = self.rest.strip_prefix(sign);
        self.rest = rest.unwrap_or(self.rest);
        rest.is_some()
    }

    fn needs(&mut self, sign: &str) {
        assert!(self.takes(sign), "{sign} before {:.40}", self.rest);
    }

    fn value(&mut self) -> Json {
        self.blanks();
        match self.rest.chars().next() {
            Some('{') => {
                self.needs("{");
                Json::Object(self.several("}", |reader| {
                    let key = reader.string();
                    reader.needs(":");
                    (key, reader.value())
                }))
            }
            Some('[') => {
                self.needs("[");
                Json::List(self.several("]", Reader::value))
            }
            Some('"') => Json::Text(self.string()),
            Some('0'..='9') => Json::Number(self.digits().parse().expect("a number")),
            Some('t') => {
                self.needs("true");
                Json::Truth(true)
            }
            Some('f') => {
                self.needs("false");
                Json::Truth(false)
            }
            _ => {
                self.needs("null");
                Json::Null
            }
        }
    }

    /// Things with commas between them, up to the sign that closes them.
    fn several<T>(&mut self, close: &str, one: impl Fn(&mut Reader<'a>) -> T) -> Vec<T> {
        let mut all = vec![];
        if self.takes(close) {
            return all;
        }
        loop {
            all.push(one(self));
            if self.takes(close) {
                return all;
            }
            self.needs(",");
        }
    }

    fn string(&mut self) -> String {
        self.needs("\"");
        let (text, rest) = self.rest.split_once('"').expect("a closing quote");
        assert!(!text.contains(|letter: char| letter == '\\' || letter.is_control()), "{text}");
        self.rest = rest;
        text.to_string()
    }

    fn digits(&mut self) -> &'a str {
        let end = self.rest.find(|letter: char| !letter.is_ascii_digit()).unwrap_or(self.rest.len());
        let (digits, rest) = self.rest.split_at(end);
        self.rest = rest;
        digits
    }
}
