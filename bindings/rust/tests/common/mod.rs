//! The samples in `tests/data` of the repository.

use pethuvazh::{Options, Uniformity};
use std::fs;
use std::path::PathBuf;

pub fn samples() -> PathBuf {
    PathBuf::from(env!("CARGO_MANIFEST_DIR")).join("../../tests/data")
}

/// Returns the lines of a file.
pub fn lines(name: &str) -> Vec<String> {
    let path = samples().join(name);
    let text =
        fs::read_to_string(&path).unwrap_or_else(|error| panic!("{}: {error}", path.display()));
    text.lines().map(str::to_owned).collect()
}

/// Returns the number after a key of the line.
fn number(line: &str, key: &str) -> u32 {
    let from = line.find(&format!("\"{key}\":")).unwrap() + key.len() + 3;
    let digits = line[from..]
        .trim_start()
        .chars()
        .take_while(char::is_ascii_digit);
    digits.collect::<String>().parse().unwrap()
}

/// Returns a line's module, and the options by which it is checked.
pub fn case(line: &str) -> (&str, Options) {
    let from = line.find("\"module\":").unwrap() + "\"module\":".len();
    let capabilities = number(&line[..from], "capabilities");
    let uniformity = match number(&line[..from], "flags") & 1 {
        0 => Uniformity::Off,
        _ => Uniformity::Naga,
    };
    let options = Options::new()
        .with_uniformity(uniformity)
        .with_non_uniform_textures(capabilities & 1 != 0)
        .with_non_uniform_storage_textures(capabilities & 2 != 0);
    (line.trim_end()[from..].strip_suffix('}').unwrap(), options)
}
