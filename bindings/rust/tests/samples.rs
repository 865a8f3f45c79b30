//! Compares reports on the modules of `tests/data/modules` with the results of naga's own code. `tests/bindings`, which
//! builds the program `report`, compares the bytes with those of the program.

mod common;

use common::{case, lines, samples};
use pethuvazh::{
    answer_lines, report, report_json, report_text, BoundsCheckPolicies, BoundsCheckPolicy,
};
use pethuvazh::{Error, Options, Text, Uniformity};
use std::fs;

#[test]
fn modules_are_accepted_as_by_naga() {
    let (modules, answers) = (
        lines("modules/modules.jsonl"),
        lines("modules/answers.jsonl"),
    );
    assert_eq!(modules.len(), answers.len());
    for (index, (line, answer)) in modules.iter().zip(&answers).enumerate() {
        let (module, options) = case(line);
        let is_accepted = answer.contains("\"layouts\":") && answer.contains("\"info\":");
        for ask in [report_json, report_text] {
            let text = ask(module.as_bytes(), options).unwrap();
            assert_eq!(text.is_accepted, is_accepted, "module {}", index + 1);
        }
        let typed = report(module.as_bytes(), options).unwrap();
        assert_eq!(typed.is_accepted(), is_accepted, "module {}", index + 1);
    }
}

#[test]
fn options_are_heeded() {
    let module = fs::read(samples().join("modules/real/derivative.json")).unwrap();
    let any_flow = Options::new().with_uniformity(Uniformity::Off);
    assert!(!report_json(&module, Options::new()).unwrap().is_accepted);
    assert!(report_json(&module, any_flow).unwrap().is_accepted);
}

#[test]
fn more_is_reported_on_request() {
    let module = fs::read(samples().join("modules/real/textured_quad.json")).unwrap();
    let policies = BoundsCheckPolicies::default()
        .with_index(BoundsCheckPolicy::Restrict)
        .with_image_load(BoundsCheckPolicy::ReadZeroSkipWrite);
    let all = Options::new()
        .with_bounds_checks(policies)
        .with_resources(true);
    let plain = report_json(&module, Options::new()).unwrap().text;
    let more = report_json(&module, all).unwrap().text;
    for member in ["\"bounds\":", "\"resources\":"] {
        assert!(more.contains(member) && !plain.contains(member), "{member}");
    }
    let plain = report_text(&module, Options::new()).unwrap().text;
    let none = Options::new();
    for options in [
        none.with_drawing(true),
        none.with_all_structs(true),
        none.with_explain(true),
    ] {
        assert!(report_text(&module, options).unwrap().text.len() > plain.len());
    }
}

/// The flags of `bindings/options.json` are those that each method sets. Policies of all kinds and their sums are tried, too.
#[test]
fn options_have_their_flags() {
    let none = Options::new();
    let single = [
        (none.with_uniformity(Uniformity::Off), 1),
        (none.with_non_uniform_textures(true), 2),
        (none.with_non_uniform_storage_textures(true), 4),
        (none.with_uniformity(Uniformity::Naga), 16),
        (none.with_drawing(true), 32),
        (none.with_resources(true), 64),
        (none.with_bounds_checks(BoundsCheckPolicies::default()), 128),
        (none.with_all_structs(true), 1 << 16),
        (none.with_explain(true), 1 << 17),
        (none.with_all(true), 1 << 18),
    ];
    for (options, flags) in single {
        assert_eq!(options.flags(), flags);
    }
    assert_eq!((none.flags(), Options::default().flags()), (0, 0));
    assert_eq!(
        none.with_all(true)
            .with_drawing(true)
            .with_all(false)
            .flags(),
        32
    );
    let policies = [
        BoundsCheckPolicy::Unchecked,
        BoundsCheckPolicy::Restrict,
        BoundsCheckPolicy::ReadZeroSkipWrite,
    ];
    for number in 0..81 {
        let digits = [0, 1, 2, 3].map(|place| number / 3_u32.pow(place) % 3);
        let [index, buffer, image_load, binding_array] = digits.map(|it| policies[it as usize]);
        let chosen = BoundsCheckPolicies::default()
            .with_index(index)
            .with_buffer(buffer);
        let chosen = chosen
            .with_image_load(image_load)
            .with_binding_array(binding_array);
        let flags = digits.iter().rev().fold(0, |sum, it| sum << 2 | it);
        assert_eq!(none.with_bounds_checks(chosen).flags(), flags << 8 | 128);
    }
}

#[test]
fn inputs_that_are_no_module_are_reported() {
    for bytes in [b"".as_slice(), b"\xff", b"[]", b"{}", b"fn main() {}"] {
        let Err(Error::NotModule(error)) = report_json(bytes, Options::new()) else {
            panic!("{bytes:?} is a module");
        };
        let why = error.text;
        assert!(
            why.starts_with("{\"version\":")
                && why.contains(",\"error\":{")
                && why.ends_with("}\n"),
            "{why}"
        );
        let Err(Error::NotModule(error)) = report_text(bytes, Options::new()) else {
            panic!("{bytes:?} is a module");
        };
        assert!(
            !error.text.starts_with('{') && error.text.ends_with('\n'),
            "{}",
            error.text
        );
        assert_eq!(
            report(bytes, Options::new()).unwrap_err().to_string(),
            Error::NotModule(error).to_string()
        );
    }
}

#[test]
fn lines_are_answered_as_by_naga() {
    for name in ["call", "rules", "layout", "convert", "module"] {
        let (asked, wanted) = (
            lines(&format!("lines/{name}.in")),
            lines(&format!("lines/{name}.out")),
        );
        for (asked, wanted) in asked.chunks(1000).zip(wanted.chunks(1000)) {
            let answers = answer_lines(&asked.join("\n")).unwrap();
            assert_eq!(answers.text, wanted.join("\n") + "\n");
            assert!(answers.is_complete);
        }
    }
}

#[test]
fn bad_lines_are_reported() {
    let answers = answer_lines("call Abs f32\nfoo\ncall Abs f32\n").unwrap();
    assert_eq!(answers.text, "f32\nbad line 2\n");
    assert!(!answers.is_complete);
    assert_eq!(answer_lines(&"\n".repeat(1_048_577)), Err(Error::TooLong));
}

#[test]
fn threads_may_call_at_once() {
    let modules = lines("modules/modules.jsonl");
    let cases: Vec<_> = modules.iter().map(|line| case(line)).collect();
    let ask = |(module, options): &(&str, Options)| report_json(module.as_bytes(), *options);
    let wanted: Vec<Result<Text, Error>> = cases.iter().map(ask).collect();
    // Eight threads, each with twenty times a call for each line.
    std::thread::scope(|scope| {
        for _ in 0..8 {
            scope.spawn(|| {
                for _ in 0..20 {
                    for (case, wanted) in cases.iter().zip(&wanted) {
                        assert_eq!(&ask(case), wanted);
                    }
                }
            });
        }
    });
}

/// The contracts say nothing about the stack.
#[test]
fn little_stack_is_enough() {
    for line in lines("modules/modules.jsonl") {
        let work = move || {
            let (module, options) = case(&line);
            let all = options
                .with_resources(true)
                .with_bounds_checks(BoundsCheckPolicies::default());
            let shown = options.with_drawing(true).with_explain(true).with_all(true);
            assert!(report(module.as_bytes(), options).is_ok());
            assert!(
                report_json(module.as_bytes(), all).is_ok()
                    && report_text(module.as_bytes(), shown).is_ok()
            );
        };
        on_little_stack(work);
    }
    let asked = lines("lines/worked.in").join("\n");
    on_little_stack(move || assert!(answer_lines(&asked).is_ok()));
}

fn on_little_stack(work: impl FnOnce() + Send + 'static) {
    let thread = std::thread::Builder::new().stack_size(256 << 10);
    thread.spawn(work).unwrap().join().unwrap();
}
