//! Reports on naga's shader modules: the layouts of their types, the type and uniformity of each expression, uses of
//! globals and pairs of image and sampler, or why a module is refused. The input is a `naga::Module` (naga 30.0.1) as
//! `serde_json` prints it.
//!
//! ```
//! use pethuvazh::{Layout, Options, Outcome};
//!
//! let module = br#"{"types":[{"name":null,"inner":{"Scalar":{"kind":"Float","width":4}}}],"special_types":{"ray_desc":null,
//!     "ray_intersection":null,"ray_vertex_return":null,"predeclared_types":{}},"constants":[],"overrides":[],
//!     "global_variables":[],"global_expressions":[],"functions":[],"entry_points":[],"diagnostic_filters":[],
//!     "diagnostic_filter_leaf":null,"doc_comments":null}"#;
//! let report = pethuvazh::report(module, Options::new())?;
//! match &report.outcome {
//!     Outcome::Accepted(analysis) => {
//!         let Layout { size, alignment, .. } = analysis.layouts[0];
//!         assert_eq!((size, alignment), (4, 4));
//!     }
//!     Outcome::NonUniform { place, .. } => println!("control flow isn't uniform in {place:?}"),
//!     _ => report.diagnostics.iter().for_each(|it| println!("{}: {}", it.code, it.message)),
//! }
//! # assert!(report.is_accepted());
//! # Ok::<(), pethuvazh::Error>(())
//! ```
//!
//! [`report`] reads the answer into structs. [`report_json`] and [`report_text`] return the bytes that the program `report`
//! prints. An accepted module isn't a validated one: see [`Options`].
//!
//! This crate calls the functions of `libpethuvazh.a`, which are proved; what reads their answers here is only tested. A
//! call has no state, starts no thread and reads no file, so calls may run at the same time.

#![deny(missing_docs, unsafe_op_in_unsafe_fn)]

pub mod bounds;
pub mod diagnostics;
mod error;
pub mod info;
mod json;
mod layouts;
mod library;
mod options;
pub mod refusal;
mod report;
pub mod resources;

pub use diagnostics::Diagnostic;
pub use error::{Error, NotModule, Position};
pub use layouts::{Layout, LayoutError, LayoutErrorInner};
pub use options::{BoundsCheckPolicies, BoundsCheckPolicy, Options, Uniformity};
pub use report::{Analysis, Outcome, Report};

use library::{ask, Request};
use pethuvazh_sys::{flags, lines_status, report_status};

/// A report as the program `report` prints it.
#[derive(Clone, Debug, PartialEq, Eq)]
#[non_exhaustive]
pub struct Text {
    /// A line of JSON, or lines of text.
    pub text: String,
    /// True if the module has no fault and each type has a layout.
    pub is_accepted: bool,
}

/// The replies to lines with questions.
#[derive(Clone, Debug, PartialEq, Eq)]
#[non_exhaustive]
pub struct Answers {
    /// A line for each question, up to the first line that isn't a question.
    pub text: String,
    /// True if each line is a question. Otherwise the text ends with `bad line` and the number of the first that isn't.
    pub is_complete: bool,
}

/// Returns the report on a module. The module is JSON as by `serde_json::to_vec(&module)`.
///
/// # Errors
///
/// An input that is no module, and an allocation that failed. The others mean that the library isn't that of this version.
pub fn report(module: &[u8], options: Options) -> Result<Report, Error> {
    match ask(Request::Report(options.flags()), module)? {
        (report_status::NOT_MODULE, text) => Err(not_module(text)),
        (status @ (report_status::ACCEPTED | report_status::REFUSED), text) => {
            Report::read(status, text)
        }
        (status, _) => Err(Error::Library { status }),
    }
}

/// Returns the report on a module as a line of JSON, which isn't read here.
///
/// # Errors
///
/// Those of [`report`].
pub fn report_json(module: &[u8], options: Options) -> Result<Text, Error> {
    let (status, text) = ask(Request::Report(options.flags()), module)?;
    match status {
        report_status::NOT_MODULE => Err(not_module(text)),
        _ => text_of(status, text),
    }
}

/// Returns the report on a module as text for people.
///
/// # Errors
///
/// Those of [`report`]. The [`text`](NotModule::text) of the error is for people, too.
pub fn report_text(module: &[u8], options: Options) -> Result<Text, Error> {
    let (status, text) = ask(Request::Report(options.flags() | flags::FOR_PEOPLE), module)?;
    if status != report_status::NOT_MODULE {
        return text_of(status, text);
    }
    // Only the JSON has what the error is made of.
    Err(match report_json(module, options) {
        Err(Error::NotModule(error)) => Error::NotModule(Box::new(NotModule { text, ..*error })),
        Err(other) => other,
        Ok(_) => Error::Library { status },
    })
}

fn not_module(text: String) -> Error {
    NotModule::read(text).map_or_else(|it| it, |it| Error::NotModule(Box::new(it)))
}

fn text_of(status: u32, text: String) -> Result<Text, Error> {
    match status {
        // No report is empty.
        report_status::ACCEPTED | report_status::REFUSED if !text.is_empty() => Ok(Text {
            text,
            is_accepted: status == report_status::ACCEPTED,
        }),
        _ => Err(Error::Library { status }),
    }
}

/// Returns the replies to lines with questions about types, as the program `typer` prints them.
///
/// ```
/// let answers = pethuvazh::answer_lines("call Max u32 AbstractInt\nlayout vec3<f32>\n")?;
/// assert_eq!(answers.text, "u32\nsize 12 align 16 stride 16\n");
/// # Ok::<(), pethuvazh::Error>(())
/// ```
///
/// # Errors
///
/// More than 1,048,576 bytes, and an allocation that failed.
pub fn answer_lines(lines: &str) -> Result<Answers, Error> {
    let (status, text) = ask(Request::Answers, lines.as_bytes())?;
    match status {
        lines_status::ANSWERED | lines_status::BAD_LINE => Ok(Answers {
            text,
            is_complete: status == lines_status::ANSWERED,
        }),
        lines_status::TOO_LONG => Err(Error::TooLong),
        _ => Err(Error::Library { status }),
    }
}
