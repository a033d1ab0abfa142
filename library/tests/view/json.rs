//! A reader of JSON, for what `legs` writes: no fractions, no exponents.

use std::iter::Peekable;
use std::ops::Index;
use std::str::Chars;

#[derive(Debug, PartialEq)]
pub enum Json {
    Null,
    Number(i64),
    Text(String),
    List(Vec<Json>),
    Object(Vec<(String, Json)>),
}

impl Json {
    pub fn read(text: &str) -> Json {
        let mut rest = text.chars().peekable();
        let value = value(&mut rest);
        assert_eq!(next(&mut rest), None, "something behind the value");
        value
    }

    pub fn number(&self) -> i64 {
        match self {
            Json::Number(number) => *number,
            _ => panic!("no number: {self:?}"),
        }
    }

    pub fn text(&self) -> &str {
        match self {
            Json::Text(text) => text,
            _ => panic!("no text: {self:?}"),
        }
    }

    pub fn list(&self) -> &[Json] {
        match self {
            Json::List(items) => items,
            _ => panic!("no list: {self:?}"),
        }
    }

    pub fn numbers(&self) -> Vec<i64> {
        self.list().iter().map(Json::number).collect()
    }

    pub fn texts(&self) -> Vec<&str> {
        self.list().iter().map(Json::text).collect()
    }
}

/// A member of an object, null where there is none.
impl Index<&str> for Json {
    type Output = Json;

    fn index(&self, name: &str) -> &Json {
        let Json::Object(members) = self else {
            panic!("no object: {self:?}")
        };
        let found = members.iter().find(|(its, _)| its == name);
        found.map_or(&Json::Null, |(_, value)| value)
    }
}

type Rest<'a> = Peekable<Chars<'a>>;

/// The next character but space.
fn next(rest: &mut Rest) -> Option<char> {
    while rest.next_if(|it| it.is_ascii_whitespace()).is_some() {}
    rest.next()
}

fn value(rest: &mut Rest) -> Json {
    match next(rest) {
        Some('"') => Json::Text(string(rest)),
        Some('[') => Json::List(items(rest, ']', value)),
        Some('{') => Json::Object(items(rest, '}', member)),
        Some('n') if (0..3).filter_map(|_| rest.next()).eq("ull".chars()) => Json::Null,
        Some(first @ ('-' | '0'..='9')) => {
            let mut digits = String::from(first);
            while let Some(digit) = rest.next_if(char::is_ascii_digit) {
                digits.push(digit);
            }
            Json::Number(digits.parse().expect("a number"))
        }
        other => panic!("no value begins with {other:?}"),
    }
}

/// What is between commas, as far as the closing mark.
fn items<T>(rest: &mut Rest, end: char, item: fn(&mut Rest) -> T) -> Vec<T> {
    let mut items = Vec::new();
    while rest.next_if(|it| it.is_ascii_whitespace()).is_some() {}
    if rest.next_if_eq(&end).is_some() {
        return items;
    }
    loop {
        items.push(item(rest));
        match next(rest) {
            Some(',') => {}
            other => {
                assert_eq!(other, Some(end));
                return items;
            }
        }
    }
}

fn member(rest: &mut Rest) -> (String, Json) {
    assert_eq!(next(rest), Some('"'));
    let name = string(rest);
    assert_eq!(next(rest), Some(':'));
    (name, value(rest))
}

/// A string behind its first quote mark.
fn string(rest: &mut Rest) -> String {
    let mut text = String::new();
    loop {
        match rest.next().expect("a quote mark at the end") {
            '"' => return text,
            '\\' => text.push(escaped(rest)),
            it => {
                assert!(it >= ' ', "a control character in a string");
                text.push(it);
            }
        }
    }
}

fn escaped(rest: &mut Rest) -> char {
    match rest.next() {
        Some('n') => '\n',
        Some(it @ ('"' | '\\' | '/')) => it,
        Some('u') => {
            let digits: String = rest.take(4).collect();
            let number = u32::from_str_radix(&digits, 16).expect("four digits");
            char::from_u32(number).expect("a character")
        }
        other => panic!("an unknown escape: {other:?}"),
    }
}
