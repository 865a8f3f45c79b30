//! Prints the report on the module on standard input, with the arguments and statuses of the program `report`:
//! `cargo run --example report -- --json --resources < module.json`. With `--typed` it prints the JSON after the crate has
//! read it, with `--lines` the replies to lines.

use pethuvazh::{
    answer_lines, report, report_json, report_text, BoundsCheckPolicies, BoundsCheckPolicy, Error,
    Options, Uniformity,
};
use std::io::{self, Read, Write};
use std::process::ExitCode;

const BAD_USAGE: u8 = 2;
const READ_FAILED: u8 = 3;
const WRITE_FAILED: u8 = 4;
const OUT_OF_MEMORY: u8 = 5;
const NOT_MODULE: u8 = 6;
/// The status for a library of another version.
const UNKNOWN: u8 = 70;

/// The text that is printed.
#[derive(Clone, Copy)]
enum Form {
    Text,
    Json,
    Typed,
    Lines,
}

/// Reads policies, as `index=Restrict,buffer=Unchecked`, if the word has some.
fn with_policies(mut policies: BoundsCheckPolicies, word: &str) -> Option<BoundsCheckPolicies> {
    for pair in word.split(',') {
        let (kind, policy) = pair.split_once('=')?;
        let policy = match policy {
            "Restrict" => BoundsCheckPolicy::Restrict,
            "ReadZeroSkipWrite" => BoundsCheckPolicy::ReadZeroSkipWrite,
            "Unchecked" => BoundsCheckPolicy::Unchecked,
            _ => return None,
        };
        policies = match kind {
            "index" => policies.with_index(policy),
            "buffer" => policies.with_buffer(policy),
            "image_load" => policies.with_image_load(policy),
            "binding_array" => policies.with_binding_array(policy),
            _ => return None,
        };
    }
    Some(policies)
}

/// Reads the arguments. The error is the one that is wrong.
fn asked(words: impl Iterator<Item = String>) -> Result<(Form, Options), String> {
    let (mut form, mut options, mut policies) = (Form::Text, Options::new(), None);
    for word in words {
        match &*word {
            "--format=text" => form = Form::Text,
            "--json" | "--format=json" => form = Form::Json,
            "--typed" => form = Form::Typed,
            "--lines" => form = Form::Lines,
            "--uniformity=wgsl" => options = options.with_uniformity(Uniformity::Wgsl),
            "--uniformity=naga" => options = options.with_uniformity(Uniformity::Naga),
            "--uniformity=off" => options = options.with_uniformity(Uniformity::Off),
            "--non-uniform-indexing=textures" => options = options.with_non_uniform_textures(true),
            "--non-uniform-indexing=storage-textures" => {
                options = options.with_non_uniform_storage_textures(true)
            }
            "--non-uniform-indexing=textures,storage-textures" => {
                options = options
                    .with_non_uniform_textures(true)
                    .with_non_uniform_storage_textures(true);
            }
            "--bounds-checks" => policies = policies.or(Some(BoundsCheckPolicies::default())),
            "--resources" => options = options.with_resources(true),
            "--drawing" => options = options.with_drawing(true),
            "--all-structs" => options = options.with_all_structs(true),
            "--explain" => options = options.with_explain(true),
            "--all" => options = options.with_all(true),
            _ => match with_policies(policies.unwrap_or_default(), &word) {
                Some(found) => policies = Some(found),
                None => return Err(word),
            },
        }
    }
    Ok((
        form,
        policies.map_or(options, |it| options.with_bounds_checks(it)),
    ))
}

/// Returns the text for an input, and the exit status.
fn answer(form: Form, input: &[u8], options: Options) -> Result<(String, u8), Error> {
    let text = match form {
        Form::Text => report_text(input, options)?,
        Form::Json => report_json(input, options)?,
        Form::Typed => {
            let report = report(input, options)?;
            let status = u8::from(!report.is_accepted());
            return Ok((report.text, status));
        }
        Form::Lines => {
            let answers = answer_lines(&String::from_utf8_lossy(input))?;
            let status = if answers.is_complete { 0 } else { BAD_USAGE };
            return Ok((answers.text, status));
        }
    };
    Ok((text.text, u8::from(!text.is_accepted)))
}

/// Prints an error, and returns the exit status.
fn failed(error: &Error) -> u8 {
    match error {
        // The block for people, or the JSON.
        Error::NotModule(error) => eprint!("{}", error.text),
        _ => eprintln!("{error}"),
    }
    match error {
        Error::NotModule(_) | Error::TooLong => NOT_MODULE,
        Error::OutOfMemory => OUT_OF_MEMORY,
        _ => UNKNOWN,
    }
}

fn main() -> ExitCode {
    let (form, options) = match asked(std::env::args().skip(1)) {
        Ok(asked) => asked,
        Err(word) => {
            eprintln!("`{word}` is no argument of this example");
            return BAD_USAGE.into();
        }
    };
    let mut input = Vec::new();
    if let Err(error) = io::stdin().read_to_end(&mut input) {
        eprintln!("{error}");
        return READ_FAILED.into();
    }
    let (text, status) = match answer(form, &input, options) {
        Ok(answer) => answer,
        Err(error) => return failed(&error).into(),
    };
    if let Err(error) = io::stdout().write_all(text.as_bytes()) {
        eprintln!("{error}");
        return WRITE_FAILED.into();
    }
    status.into()
}
