//! Reads JSON, as the library writes it, into values, and values into the types of answers.

use std::borrow::Cow;

/// A value of JSON.
#[derive(Debug)]
pub(crate) enum Value<'a> {
    Null,
    Bool(bool),
    Number(u64),
    /// A number that isn't an integer of 64 bits. No member that is read has one.
    OtherNumber,
    String(Cow<'a, str>),
    Array(Vec<Value<'a>>),
    Object(Vec<(Cow<'a, str>, Value<'a>)>),
}

/// Why an answer can't be read: the path to a value, and what is expected there.
#[derive(Debug, PartialEq, Eq)]
pub(crate) struct Wrong {
    pub path: String,
    pub expected: &'static str,
}

impl Wrong {
    pub(crate) fn new(expected: &'static str) -> Self {
        Wrong {
            path: String::new(),
            expected,
        }
    }

    /// Returns the error with a step in front of its path.
    fn within(self, step: String) -> Self {
        Wrong {
            path: step + &self.path,
            ..self
        }
    }
}

/// A type that is read from a value.
pub(crate) trait Read: Sized {
    fn read(value: &Value<'_>) -> Result<Self, Wrong>;
}

impl<'a> Value<'a> {
    /// Returns the member of an object, which may be absent.
    fn find(&self, name: &str) -> Result<Option<&Value<'a>>, Wrong> {
        match self {
            Value::Object(members) => Ok(members
                .iter()
                .find(|(key, _)| key == name)
                .map(|(_, value)| value)),
            _ => Err(Wrong::new("an object")),
        }
    }

    /// Reads a member.
    pub(crate) fn member<T: Read>(&self, name: &'static str) -> Result<T, Wrong> {
        let found = self
            .find(name)?
            .ok_or_else(|| Wrong::new("a value").within(format!(".{name}")))?;
        T::read(found).map_err(|it| it.within(format!(".{name}")))
    }

    /// Reads a member, if it is there.
    pub(crate) fn optional<T: Read>(&self, name: &'static str) -> Result<Option<T>, Wrong> {
        let found = self.find(name)?.map(T::read).transpose();
        found.map_err(|it| it.within(format!(".{name}")))
    }

    /// Returns the name of a variant, and its payload if it has one.
    pub(crate) fn variant(&self) -> Result<(&str, Option<&Value<'a>>), Wrong> {
        match self {
            Value::String(name) => Ok((name, None)),
            Value::Object(members) if members.len() == 1 => {
                Ok((&members[0].0, Some(&members[0].1)))
            }
            _ => Err(Wrong::new("a variant")),
        }
    }

    /// Returns the names in a string of flags.
    pub(crate) fn names(&self) -> Result<impl Iterator<Item = &str>, Wrong> {
        match self {
            Value::String(text) => Ok(text.split(" | ").filter(|it| !it.is_empty())),
            _ => Err(Wrong::new("flags")),
        }
    }
}

macro_rules! read_integers {
    ($($type:ty)+) => { $(
        impl Read for $type {
            fn read(value: &Value<'_>) -> Result<Self, Wrong> {
                match value {
                    Value::Number(number) => <$type>::try_from(*number).map_err(|_| Wrong::new("a smaller integer")),
                    _ => Err(Wrong::new("an integer")),
                }
            }
        }
    )+ };
}
read_integers!(u8 u16 u32 u64 usize);

impl Read for bool {
    fn read(value: &Value<'_>) -> Result<Self, Wrong> {
        match value {
            Value::Bool(it) => Ok(*it),
            _ => Err(Wrong::new("true or false")),
        }
    }
}

impl Read for String {
    fn read(value: &Value<'_>) -> Result<Self, Wrong> {
        match value {
            Value::String(text) => Ok(text.clone().into_owned()),
            _ => Err(Wrong::new("a string")),
        }
    }
}

impl<T: Read> Read for Option<T> {
    fn read(value: &Value<'_>) -> Result<Self, Wrong> {
        match value {
            Value::Null => Ok(None),
            _ => T::read(value).map(Some),
        }
    }
}

impl<T: Read> Read for Vec<T> {
    fn read(value: &Value<'_>) -> Result<Self, Wrong> {
        let Value::Array(items) = value else {
            return Err(Wrong::new("an array"));
        };
        let read = |(index, item)| T::read(item).map_err(|it| it.within(format!("[{index}]")));
        items.iter().enumerate().map(read).collect()
    }
}

impl<T: Read, const N: usize> Read for [T; N] {
    fn read(value: &Value<'_>) -> Result<Self, Wrong> {
        let items = Vec::read(value)?;
        items
            .try_into()
            .map_err(|_| Wrong::new("an array of another length"))
    }
}

/// Reads a struct from the members with the names of its fields, or with the names that are given.
macro_rules! read_members {
    ($type:ident { $($field:ident $($name:literal)?),+ $(,)? }) => {
        impl $crate::json::Read for $type {
            fn read(value: &$crate::json::Value<'_>) -> Result<Self, $crate::json::Wrong> {
                Ok($type { $($field: value.member($crate::json::name_of!($field $($name)?))?),+ })
            }
        }
    };
}

/// Reads an enum without payloads from the names of its variants, or from the names that are given.
macro_rules! read_names {
    ($type:ident { $($variant:ident $($name:literal)?),+ $(,)? }) => {
        impl $crate::json::Read for $type {
            fn read(value: &$crate::json::Value<'_>) -> Result<Self, $crate::json::Wrong> {
                match value.variant()? {
                    $(($crate::json::name_of!($variant $($name)?), None) => Ok($type::$variant),)+
                    _ => Err($crate::json::Wrong::new(concat!("a name of `", stringify!($type), "`"))),
                }
            }
        }
    };
}

/// Reads a struct of flags from their names.
macro_rules! read_flags {
    ($type:ident { $($field:ident $name:literal),+ $(,)? }) => {
        impl $crate::json::Read for $type {
            fn read(value: &$crate::json::Value<'_>) -> Result<Self, $crate::json::Wrong> {
                let mut found = $type::default();
                for name in value.names()? {
                    match name {
                        $($name => found.$field = true,)+
                        _ => return Err($crate::json::Wrong::new(concat!("flags of `", stringify!($type), "`"))),
                    }
                }
                Ok(found)
            }
        }
    };
}

macro_rules! name_of {
    ($field:ident) => {
        stringify!($field)
    };
    ($field:ident $name:literal) => {
        $name
    };
}

pub(crate) use {name_of, read_flags, read_members, read_names};

/// The maximum number of arrays and objects inside each other.
const MOST_LEVELS: usize = 128;

/// Reads a text that is a value with white space about it.
pub(crate) fn parse(text: &str) -> Result<Value<'_>, Wrong> {
    let mut parser = Parser {
        text,
        at: 0,
        levels: 0,
    };
    let value = parser.value()?;
    parser.skip_space();
    if parser.at < text.len() {
        return Err(parser.wrong("the end"));
    }
    Ok(value)
}

struct Parser<'a> {
    text: &'a str,
    /// The next byte.
    at: usize,
    /// How many arrays and objects are open.
    levels: usize,
}

impl<'a> Parser<'a> {
    fn wrong(&self, expected: &'static str) -> Wrong {
        Wrong {
            path: format!("byte {}", self.at),
            expected,
        }
    }

    fn peek(&self) -> Option<u8> {
        self.text.as_bytes().get(self.at).copied()
    }

    fn skip_space(&mut self) {
        while matches!(self.peek(), Some(b' ' | b'\t' | b'\n' | b'\r')) {
            self.at += 1;
        }
    }

    /// Skips white space, and a byte if it is next.
    fn skip(&mut self, byte: u8) -> bool {
        self.skip_space();
        let is_next = self.peek() == Some(byte);
        self.at += usize::from(is_next);
        is_next
    }

    fn word(&mut self, word: &str, value: Value<'a>) -> Result<Value<'a>, Wrong> {
        if !self.text[self.at..].starts_with(word) {
            return Err(self.wrong("a value"));
        }
        self.at += word.len();
        Ok(value)
    }

    fn value(&mut self) -> Result<Value<'a>, Wrong> {
        self.skip_space();
        match self.peek() {
            Some(b'n') => self.word("null", Value::Null),
            Some(b't') => self.word("true", Value::Bool(true)),
            Some(b'f') => self.word("false", Value::Bool(false)),
            Some(b'"') => self.string().map(Value::String),
            Some(b'-' | b'0'..=b'9') => Ok(self.number()),
            Some(b'[') => self.nested(b']', Self::value).map(Value::Array),
            Some(b'{') => self.nested(b'}', Self::pair).map(Value::Object),
            _ => Err(self.wrong("a value")),
        }
    }

    fn number(&mut self) -> Value<'a> {
        let rest = &self.text[self.at..];
        let is_part = |it: char| it.is_ascii_digit() || matches!(it, '+' | '-' | '.' | 'e' | 'E');
        let length = rest.find(|it| !is_part(it)).unwrap_or(rest.len());
        self.at += length;
        rest[..length]
            .parse()
            .map_or(Value::OtherNumber, Value::Number)
    }

    /// Reads the items of an array or an object behind its bracket.
    fn nested<T>(
        &mut self,
        end: u8,
        item: fn(&mut Self) -> Result<T, Wrong>,
    ) -> Result<Vec<T>, Wrong> {
        if self.levels == MOST_LEVELS {
            return Err(self.wrong("fewer levels"));
        }
        self.levels += 1;
        self.at += 1;
        let mut items = Vec::new();
        let mut is_ended = self.skip(end);
        while !is_ended {
            items.push(item(self)?);
            is_ended = self.skip(end);
            if !is_ended && !self.skip(b',') {
                return Err(self.wrong("`,` or the closing bracket"));
            }
        }
        self.levels -= 1;
        Ok(items)
    }

    fn pair(&mut self) -> Result<(Cow<'a, str>, Value<'a>), Wrong> {
        self.skip_space();
        if self.peek() != Some(b'"') {
            return Err(self.wrong("a string"));
        }
        let key = self.string()?;
        if !self.skip(b':') {
            return Err(self.wrong("`:`"));
        }
        Ok((key, self.value()?))
    }

    /// Reads a string from its quote on. It is borrowed if it has no escape.
    fn string(&mut self) -> Result<Cow<'a, str>, Wrong> {
        self.at += 1;
        let mut text = Cow::Borrowed("");
        loop {
            let rest = &self.text[self.at..];
            let length = rest
                .find(['"', '\\'])
                .ok_or_else(|| self.wrong("the end of the string"))?;
            text += &rest[..length];
            self.at += length + 1;
            if rest.as_bytes()[length] == b'"' {
                return Ok(text);
            }
            text.to_mut().push(self.escape()?);
        }
    }

    /// Reads an escape behind its backslash.
    fn escape(&mut self) -> Result<char, Wrong> {
        let letter = self.peek().ok_or_else(|| self.wrong("an escape"))?;
        self.at += 1;
        Ok(match letter {
            b'"' | b'\\' | b'/' => char::from(letter),
            b'b' => '\u{8}',
            b'f' => '\u{c}',
            b'n' => '\n',
            b'r' => '\r',
            b't' => '\t',
            b'u' => {
                let first = self.unit()?;
                // A character beyond U+FFFF is a pair of units.
                let units = if (0xd800..0xdc00).contains(&first) {
                    self.word("\\u", Value::Null)?;
                    vec![first, self.unit()?]
                } else {
                    vec![first]
                };
                match char::decode_utf16(units)
                    .collect::<Result<Vec<_>, _>>()
                    .as_deref()
                {
                    Ok([it]) => *it,
                    _ => return Err(self.wrong("a character")),
                }
            }
            _ => return Err(self.wrong("an escape")),
        })
    }

    /// Reads four hexadecimal digits.
    fn unit(&mut self) -> Result<u16, Wrong> {
        let digits = self
            .text
            .get(self.at..self.at + 4)
            .filter(|it| it.bytes().all(|byte| byte.is_ascii_hexdigit()));
        let unit = digits.and_then(|it| u16::from_str_radix(it, 16).ok());
        self.at += 4;
        unit.ok_or_else(|| self.wrong("four hexadecimal digits"))
    }
}

#[cfg(test)]
mod tests {
    use super::*;

    #[test]
    fn values_are_read() {
        let value = parse(" {\"a\" : [1, null,true,\"x\\u00e9\\ud83d\\ude00\\n\\\"\"], \"b\":{} , \"c\":-1.5e3}\n").unwrap();
        assert_eq!(
            value.member::<Vec<u8>>("b").unwrap_err(),
            Wrong {
                path: ".b".into(),
                expected: "an array"
            }
        );
        let Value::Array(items) = value.find("a").unwrap().unwrap() else {
            panic!()
        };
        assert_eq!(u64::read(&items[0]), Ok(1));
        assert_eq!(Option::<u64>::read(&items[1]), Ok(None));
        assert_eq!(bool::read(&items[2]), Ok(true));
        assert_eq!(String::read(&items[3]), Ok("xé😀\n\"".to_owned()));
        assert!(value.optional::<u64>("d").unwrap().is_none() && value.member::<u64>("d").is_err());
        assert!(value.member::<u64>("c").is_err());
    }

    #[test]
    fn other_texts_are_refused() {
        for text in [
            "", "{", "[1,", "[1 2]", "{\"a\"}", "{\"a\":}", "{a:1}", "\"", "\"\\", "\"\\x\"",
            "nul", "[1]]", "[,]",
        ] {
            assert!(parse(text).is_err(), "{text}");
        }
        for text in [
            "\"\\u12\"",
            "\"\\u+123\"",
            "\"\\ud83d\"",
            "\"\\ud83dx\"",
            "\"\\ude00\"",
            "\"\\u12é\"",
        ] {
            assert!(parse(text).is_err(), "{text}");
        }
        assert!(parse(&"[".repeat(100_000)).is_err());
    }

    #[test]
    fn numbers_have_a_range() {
        assert!(
            u8::read(&parse("256").unwrap()).is_err()
                && u8::read(&parse("255").unwrap()) == Ok(255)
        );
        assert_eq!(
            u64::read(&parse("18446744073709551615").unwrap()),
            Ok(u64::MAX)
        );
        assert!(u64::read(&parse("18446744073709551616").unwrap()).is_err());
    }
}
