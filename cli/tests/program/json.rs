//! A reader of JSON, as much of it as the program writes.

#[derive(Clone, PartialEq, Debug)]
pub enum Json {
    Number(f64),
    Bool(bool),
    Text(String),
    List(Vec<Json>),
    Object(Vec<(String, Json)>),
}

impl Json {
    /// The value of a field.
    pub fn get(&self, name: &str) -> Option<&Json> {
        match self {
            Json::Object(fields) => fields.iter().find(|(field, _)| field == name).map(|(_, value)| value),
            _ => None,
        }
    }

    pub fn number(&self) -> usize {
        match self {
            Json::Number(number) if number.fract() == 0.0 => *number as usize,
            other => panic!("{other:?}"),
        }
    }

    pub fn text(&self) -> &str {
        match self {
            Json::Text(text) => text,
            other => panic!("{other:?}"),
        }
    }

    pub fn list(&self) -> &[Json] {
        match self {
            Json::List(list) => list,
            other => panic!("{other:?}"),
        }
    }

    pub fn numbers(&self) -> Vec<usize> {
        self.list().iter().map(Json::number).collect()
    }
}

/// The value of a whole text.
pub fn read(text: &str) -> Result<Json, String> {
    let mut rest = text.chars().collect::<Vec<_>>().into_iter().peekable();
    let value = value(&mut rest)?;
    match rest.next() {
        None => Ok(value),
        Some(c) => Err(format!("{c:?} follows")),
    }
}

type Rest = std::iter::Peekable<std::vec::IntoIter<char>>;

fn value(rest: &mut Rest) -> Result<Json, String> {
    match rest.peek() {
        Some('"') => string(rest).map(Json::Text),
        Some('[') => members(rest, ']', value).map(Json::List),
        Some('{') => members(rest, '}', field).map(Json::Object),
        _ => {
            let mut word = String::new();
            while let Some(c) = rest.next_if(|c| c.is_ascii_alphanumeric() || "+-.".contains(*c)) {
                word.push(c);
            }
            match word.as_str() {
                "true" => Ok(Json::Bool(true)),
                "false" => Ok(Json::Bool(false)),
                number => number.parse().map(Json::Number).map_err(|_| format!("{number:?} is no value")),
            }
        }
    }
}

fn field(rest: &mut Rest) -> Result<(String, Json), String> {
    let name = string(rest)?;
    match rest.next() {
        Some(':') => Ok((name, value(rest)?)),
        other => Err(format!("{other:?} after {name}")),
    }
}

/// What stands in brackets, with commas between.
fn members<T>(rest: &mut Rest, end: char, one: fn(&mut Rest) -> Result<T, String>) -> Result<Vec<T>, String> {
    let mut all = Vec::new();
    rest.next();
    if rest.next_if_eq(&end).is_some() {
        return Ok(all);
    }
    loop {
        all.push(one(rest)?);
        match rest.next() {
            Some(',') => {}
            Some(c) if c == end => return Ok(all),
            other => return Err(format!("{other:?} inside brackets")),
        }
    }
}

fn string(rest: &mut Rest) -> Result<String, String> {
    let mut text = String::new();
    if rest.next() != Some('"') {
        return Err("no text".to_string());
    }
    loop {
        match rest.next() {
            Some('"') => return Ok(text),
            Some('\\') => match rest.next() {
                Some(c @ ('"' | '\\')) => text.push(c),
                Some('u') => {
                    let code: String = rest.by_ref().take(4).collect();
                    let code = u32::from_str_radix(&code, 16).ok().and_then(char::from_u32);
                    text.push(code.ok_or("no character")?);
                }
                other => return Err(format!("{other:?} behind a backslash")),
            },
            Some(c) if c >= ' ' => text.push(c),
            other => return Err(format!("{other:?} in a text")),
        }
    }
}
