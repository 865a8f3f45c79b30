//! What is wrong, where, and why.

use crate::json::{read_members, read_names, Read, Value, Wrong};
use crate::refusal::Place;

/// An error of a module or an input.
#[derive(Clone, Debug, PartialEq, Eq)]
#[non_exhaustive]
pub struct Diagnostic {
    /// The code, as `U103`. A later version may have further ones.
    pub code: String,
    /// The name of the code, as `barrier-in-divergent-flow`.
    pub name: String,
    /// How bad it is.
    pub severity: Severity,
    /// What is wrong, in a sentence. The wording may change in any version, so compare codes.
    pub message: String,
    /// Where it is wrong.
    pub location: Location,
    /// Facts of the code.
    pub data: Data,
    /// The causes, from the place back to the source.
    pub related: Vec<Related>,
    /// How many causes aren't in `related`.
    pub omitted: u64,
    /// What to know about it.
    pub notes: Vec<String>,
    /// What to do.
    pub help: Vec<String>,
}
read_members!(Diagnostic {
    code,
    name,
    severity,
    message,
    location,
    data,
    related,
    omitted,
    notes,
    help
});

/// How bad something is.
#[derive(Clone, Copy, Debug, PartialEq, Eq, Hash)]
#[non_exhaustive]
pub enum Severity {
    /// The module is refused for it.
    Error,
    /// A hint at a likely error.
    Warning,
    /// Something to know.
    Info,
}
read_names!(Severity { Error "error", Warning "warning", Info "info" });

/// A cause of an error.
#[derive(Clone, Debug, PartialEq, Eq)]
#[non_exhaustive]
pub struct Related {
    /// The cause, in words.
    pub message: String,
    /// Where it is.
    pub location: Location,
}
read_members!(Related { message, location });

/// A place in a module. What doesn't apply is `None`.
#[derive(Clone, Debug, Default, PartialEq, Eq)]
#[non_exhaustive]
pub struct Location {
    /// The function, entry point or global expression.
    pub body: Option<Place>,
    /// The name of the function or entry point.
    pub name: Option<String>,
    /// The path from the function to a statement, as `body[2].If.accept[0]`.
    pub statement: Option<String>,
    /// The position of an expression of `body`.
    pub expression: Option<usize>,
    /// The expression as WGSL, as excerpts print it.
    pub text: Option<String>,
    /// The position of a type.
    pub ty: Option<usize>,
    /// The JSON pointer (RFC 6901) from the module to the most precise of these.
    pub pointer: Option<String>,
    /// The index of an argument.
    pub argument: Option<usize>,
    /// Of a value in the JSON: the path to it, as `entry_points[0].stage`; empty for the input.
    pub path: Option<String>,
    /// The line of that value, from 1.
    pub line: Option<usize>,
    /// The column of that value, from 1, in characters.
    pub column: Option<usize>,
    /// The first byte of that value, from 0.
    pub byte: Option<usize>,
}

impl Read for Location {
    fn read(value: &Value<'_>) -> Result<Self, Wrong> {
        Ok(Location {
            body: value.member("body")?,
            name: value.optional("name")?,
            statement: value.optional("statement")?,
            expression: value.optional("expression")?,
            text: value.optional("text")?,
            ty: value.optional("type")?,
            pointer: value.optional("pointer")?,
            argument: value.optional("argument")?,
            path: value.optional("path")?,
            line: value.optional("line")?,
            column: value.optional("column")?,
            byte: value.optional("byte")?,
        })
    }
}

/// Facts of a code. What the code hasn't is `None`, or an empty list.
#[derive(Clone, Debug, Default, PartialEq, Eq)]
#[non_exhaustive]
pub struct Data {
    /// Of I011 to I016: what is wanted of a value.
    pub expected: Option<String>,
    /// Of I011 to I016: what is there.
    pub found: Option<String>,
    /// Of M001 to M008: the index of the item at fault.
    pub index: Option<u64>,
    /// Of M001 to M008: the list that should have it.
    pub list: Option<String>,
    /// Of M001 to M008: how many items that list has.
    pub length: Option<u64>,
    /// Of M007: how many arguments are passed.
    pub given: Option<u64>,
    /// Of M007: how many arguments the function takes.
    pub wanted: Option<u64>,
    /// Of T009: the built-in function.
    pub function: Option<String>,
    /// Of T009: the types of the arguments.
    pub arguments: Vec<String>,
    /// Of T009: the index of the argument at fault.
    pub argument: Option<usize>,
    /// Of T009: the closest overloads, as `acos(f32) -> f32`.
    pub candidates: Vec<String>,
}

impl Read for Data {
    fn read(value: &Value<'_>) -> Result<Self, Wrong> {
        Ok(Data {
            expected: value.optional("expected")?,
            found: value.optional("found")?,
            index: value.optional("index")?,
            list: value.optional("list")?,
            length: value.optional("length")?,
            given: value.optional("given")?,
            wanted: value.optional("wanted")?,
            function: value.optional("function")?,
            arguments: value.optional("arguments")?.unwrap_or_default(),
            argument: value.optional("argument")?,
            candidates: value.optional("candidates")?.unwrap_or_default(),
        })
    }
}
