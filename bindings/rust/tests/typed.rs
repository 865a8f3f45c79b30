//! Reads the report on each sample into structs, and writes these back: the text is that from which they were read.

mod common;
#[path = "common/written.rs"]
mod written;

use common::{case, lines, samples};
use pethuvazh::{
    report, report_json, report_text, BoundsCheckPolicies, BoundsCheckPolicy, Error, Options,
    Outcome, Uniformity,
};
use std::fs;
use written::Written;

/// Returns a name, the text and the options of each sample.
fn inputs() -> Vec<(String, Vec<u8>, Options)> {
    let mut found = Vec::new();
    for name in [
        "modules/modules.jsonl",
        "modules/bounded/modules.jsonl",
        "modules/broken/faulty.jsonl",
    ] {
        for (index, line) in lines(name).iter().enumerate() {
            let (module, options) = case(line);
            found.push((format!("{name}:{}", index + 1), module.into(), options));
        }
    }
    for folder in [
        "modules/real",
        "modules/text",
        "modules/drawn",
        "modules/broken",
        "resources",
    ] {
        let files = fs::read_dir(samples().join(folder))
            .unwrap()
            .map(|it| it.unwrap().path());
        for path in files.filter(|it| it.extension().is_some_and(|it| it == "json")) {
            found.push((
                path.display().to_string(),
                fs::read(&path).unwrap(),
                Options::new(),
            ));
        }
    }
    found
}

/// Returns the line for what a sample is read into.
fn written(module: &[u8], options: Options) -> String {
    let line = match report(module, options) {
        Ok(report) => {
            assert!(report.is_accepted() == report.diagnostics.is_empty());
            report.written()
        }
        Err(Error::NotModule(error)) => error.written(),
        Err(other) => panic!("{other}"),
    };
    line + "\n"
}

#[test]
fn all_of_a_report_is_read() {
    let policies = BoundsCheckPolicies::default()
        .with_index(BoundsCheckPolicy::Restrict)
        .with_buffer(BoundsCheckPolicy::ReadZeroSkipWrite);
    let (mut tried, mut wrong) = (0, Vec::new());
    for (name, module, options) in inputs() {
        for options in [
            options,
            options
                .with_uniformity(Uniformity::Wgsl)
                .with_resources(true)
                .with_bounds_checks(policies),
        ] {
            let text = match report_json(&module, options) {
                Ok(report) => report.text,
                Err(Error::NotModule(error)) => error.text,
                Err(other) => panic!("{name}: {other}"),
            };
            tried += 1;
            let again = written(&module, options);
            if again != text {
                wrong.push(format!("{name}: {again}instead of {text}"));
            }
        }
    }
    assert!(tried > 500, "{tried}");
    assert!(
        wrong.is_empty(),
        "{} of {tried}, first {}",
        wrong.len(),
        wrong[0]
    );
}

#[test]
fn outcomes_are_told_apart() {
    let outcome = |name: &str, options| {
        let module = fs::read(samples().join("modules").join(name)).unwrap();
        report(&module, options).unwrap().outcome
    };
    let naga = Options::new().with_uniformity(Uniformity::Naga);
    assert!(matches!(
        outcome("real/textured_quad.json", Options::new()),
        Outcome::Accepted(_)
    ));
    assert!(matches!(
        outcome("real/derivative.json", Options::new()),
        Outcome::NonUniform { .. }
    ));
    assert!(matches!(
        outcome("real/derivative.json", naga),
        Outcome::Refused { layouts: Ok(_), .. }
    ));
    assert!(matches!(
        outcome("text/no_layout.json", naga),
        Outcome::NoLayout { .. }
    ));
    assert!(matches!(
        outcome("text/ill_formed.json", naga),
        Outcome::IllFormed(_)
    ));
}

#[test]
fn an_input_that_is_no_module_has_a_position() {
    let module = fs::read(samples().join("modules/broken/shape-unknown_stage.json")).unwrap();
    for ask in [report_json, report_text] {
        let Err(Error::NotModule(error)) = ask(&module, Options::new()) else {
            panic!()
        };
        assert_eq!(
            (
                error.position.line,
                error.position.column,
                error.position.byte
            ),
            (Some(1), Some(1101), Some(1100))
        );
        assert_eq!(error.path.as_deref(), Some("entry_points[0].stage"));
        assert_eq!(
            error.expected,
            "`Vertex`, `Fragment`, `Compute`, `Mesh` or `Task`"
        );
        assert_eq!(error.found.as_deref(), Some("\"Hull\""));
        let said = Error::NotModule(error).to_string();
        assert_eq!(
            said,
            "not a module: line 1, column 1101: unknown shader stage `Hull` [I014]"
        );
    }
}
