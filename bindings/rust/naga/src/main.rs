//! Prints the report on a shader in WGSL on standard input: `cargo run < shader.wgsl`

use std::error::Error;
use std::io::Read;

fn main() -> Result<(), Box<dyn Error>> {
    let mut source = String::new();
    std::io::stdin().read_to_string(&mut source)?;
    let mut module = naga::front::wgsl::parse_str(&source)?;
    // The keys of this map are enums with data, so serde_json refuses to print it; a list of pairs replaces it.
    let pairs: Vec<_> = std::mem::take(&mut module.special_types.predeclared_types).into_iter().collect();
    let mut json = serde_json::to_value(&module)?;
    json["special_types"]["predeclared_types"] = serde_json::to_value(pairs)?;
    let report = pethuvazh::report_text(json.to_string().as_bytes(), pethuvazh::Options::new())?;
    print!("{}", report.text);
    Ok(())
}
