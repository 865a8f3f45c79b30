//! Why there is no report.

use crate::diagnostics::Diagnostic;
use crate::json::{parse, Read, Value, Wrong};
use crate::report::version_of;
use std::fmt;

/// Why there is no report, or no replies.
#[derive(Clone, Debug, PartialEq, Eq)]
#[non_exhaustive]
pub enum Error {
    /// The input is no module.
    NotModule(Box<NotModule>),
    /// The lines have more than 1,048,576 bytes.
    TooLong,
    /// An allocation failed: one of the library, or that of the buffer for its text.
    OutOfMemory,
    /// The library ended with a status that has no meaning here. It may be of another version than this crate.
    #[non_exhaustive]
    Library {
        /// The status.
        status: u32,
    },
    /// The library answered in a format of another version.
    #[non_exhaustive]
    Version {
        /// The version of that format.
        found: String,
    },
    /// The text of the library isn't one that this crate reads.
    #[non_exhaustive]
    Answer {
        /// The path to a value of the text.
        path: String,
        /// What is expected there.
        expected: &'static str,
    },
    /// The processor lacks instructions of x86-64-v2, for which the library is built.
    Processor,
}

impl fmt::Display for Error {
    fn fmt(&self, f: &mut fmt::Formatter<'_>) -> fmt::Result {
        match self {
            Error::NotModule(error) => write!(f, "not a module: {error}"),
            Error::TooLong => f.write_str("the lines have more than 1,048,576 bytes"),
            Error::OutOfMemory => f.write_str("out of memory"),
            Error::Library { status } => {
                write!(f, "the library ended with status {status}, which this version of the crate doesn't know")
            }
            Error::Version { found } => {
                write!(f, "the library answers in the format {found}, which this version of the crate doesn't read")
            }
            Error::Answer { path, expected } => write!(
                f,
                "the answer of the library has something else than {expected} at `{path}`"
            ),
            Error::Processor => {
                f.write_str("the library needs a processor with the instructions of x86-64-v2")
            }
        }
    }
}

impl std::error::Error for Error {}

impl From<Wrong> for Error {
    fn from(wrong: Wrong) -> Self {
        Error::Answer {
            path: wrong.path,
            expected: wrong.expected,
        }
    }
}

/// Why an input is no module.
#[derive(Clone, Debug, PartialEq, Eq)]
#[non_exhaustive]
pub struct NotModule {
    /// Where the input is wrong.
    pub position: Position,
    /// The path to the wrong value, as `entry_points[0].stage`, or an empty one for the input. `None` where the input isn't JSON.
    pub path: Option<String>,
    /// What is wanted there, in words.
    pub expected: String,
    /// What is there, in words.
    pub found: Option<String>,
    /// The error with its code, message and help.
    pub diagnostic: Diagnostic,
    /// What the program `report` prints of it: JSON, or of [`report_text`](crate::report_text) text.
    pub text: String,
}

/// A position in an input.
#[derive(Clone, Copy, Debug, Default, PartialEq, Eq, Hash)]
#[non_exhaustive]
pub struct Position {
    /// The byte, from 0.
    pub byte: Option<usize>,
    /// The line, from 1. There is none if the input is too long.
    pub line: Option<usize>,
    /// The column, from 1, in characters.
    pub column: Option<usize>,
}

/// Where the input is wrong, and what is wanted there.
struct InputError {
    path: Option<String>,
    byte: Option<usize>,
    wanted: String,
}

impl Read for InputError {
    fn read(value: &Value<'_>) -> Result<Self, Wrong> {
        Ok(InputError {
            path: value.optional("path")?,
            byte: value.optional("byte")?,
            wanted: value.member("wanted")?,
        })
    }
}

impl NotModule {
    /// Reads the error of an input from its JSON.
    pub(crate) fn read(text: String) -> Result<Self, Error> {
        let value = parse(&text)?;
        version_of(&value)?;
        let error: InputError = value.member("error")?;
        let diagnostics: Vec<Diagnostic> = value.member("diagnostics")?;
        let diagnostic = diagnostics
            .into_iter()
            .next()
            .ok_or(Wrong::new("a diagnostic"))?;
        let (location, data) = (&diagnostic.location, &diagnostic.data);
        Ok(NotModule {
            position: Position {
                byte: location.byte.or(error.byte),
                line: location.line,
                column: location.column,
            },
            path: error.path,
            expected: data.expected.clone().unwrap_or(error.wanted),
            found: data.found.clone(),
            diagnostic,
            text,
        })
    }
}

impl fmt::Display for NotModule {
    fn fmt(&self, f: &mut fmt::Formatter<'_>) -> fmt::Result {
        if let (Some(line), Some(column)) = (self.position.line, self.position.column) {
            write!(f, "line {line}, column {column}: ")?;
        } else if let Some(byte) = self.position.byte {
            write!(f, "byte {byte}: ")?;
        }
        write!(f, "{} [{}]", self.diagnostic.message, self.diagnostic.code)
    }
}

#[cfg(test)]
mod tests {
    use super::Error;

    #[test]
    fn errors_without_a_position_say_what_is_wrong() {
        let said = |error: Error| error.to_string();
        let processor = "the library needs a processor with the instructions of x86-64-v2";
        let version = Error::Version {
            found: "2.0".to_string(),
        };
        let answer = Error::Answer {
            path: "info.functions[0]".to_string(),
            expected: "an object",
        };
        assert_eq!(said(Error::Processor), processor);
        assert_eq!(
            said(Error::TooLong),
            "the lines have more than 1,048,576 bytes"
        );
        assert_eq!(said(Error::OutOfMemory), "out of memory");
        assert!(said(Error::Library { status: 9 }).contains("status 9,"));
        assert!(said(version).contains("the format 2.0,"));
        assert!(said(answer).contains("than an object at `info.functions[0]`"));
    }
}
