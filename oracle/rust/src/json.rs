//! As much of JSON as `tables.json` has.

pub enum Json {
    Word,
    Int(i64),
    Text(String),
    List(Vec<Json>),
    Object(Vec<(String, Json)>),
}

impl Json {
    pub fn parse(text: &str) -> Self {
        let (value, rest) = value(text);
        assert_eq!(rest.trim_start(), "");
        value
    }

    pub fn get(&self, key: &str) -> &Json {
        let Json::Object(fields) = self else {
            panic!("{key} of no object");
        };
        let found = fields.iter().find(|(name, _)| name == key);
        &found.unwrap_or_else(|| panic!("no {key}")).1
    }

    pub fn items(&self) -> &[Json] {
        let Json::List(items) = self else {
            panic!("no list");
        };
        items
    }

    pub fn int(&self) -> i64 {
        let Json::Int(n) = self else {
            panic!("no number");
        };
        *n
    }

    pub fn text(&self) -> &str {
        let Json::Text(text) = self else {
            panic!("no text");
        };
        text
    }
}

/// A value and the text after it.
fn value(text: &str) -> (Json, &str) {
    let text = text.trim_start();
    let end = |stops: &[char]| text.find(stops).unwrap_or(text.len());
    match text.as_bytes()[0] {
        b'{' => {
            let (fields, rest) = list(&text[1..], '}', |text| {
                let (key, rest) = value(text);
                let (value, rest) = value(rest.trim_start().strip_prefix(':').unwrap());
                ((key.text().into(), value), rest)
            });
            (Json::Object(fields), rest)
        }
        b'[' => {
            let (items, rest) = list(&text[1..], ']', value);
            (Json::List(items), rest)
        }
        b'"' => {
            let (text, rest) = text[1..].split_once('"').unwrap();
            (Json::Text(text.into()), rest)
        }
        b'-' | b'0'..=b'9' => {
            let (number, rest) = text.split_at(end(&[',', '}', ']', '\n']));
            (Json::Int(number.trim().parse().unwrap()), rest)
        }
        _ => (Json::Word, &text[end(&[',', '}', ']', '\n'])..]),
    }
}

/// What stands between commas up to `close`, each item read by `item`.
fn list<T>(text: &str, close: char, item: impl Fn(&str) -> (T, &str)) -> (Vec<T>, &str) {
    let (mut items, mut text) = (vec![], text.trim_start());
    while !text.starts_with(close) {
        let (next, rest) = item(text);
        items.push(next);
        let rest = rest.trim_start();
        text = rest.strip_prefix(',').unwrap_or(rest).trim_start();
    }
    (items, &text[1..])
}
