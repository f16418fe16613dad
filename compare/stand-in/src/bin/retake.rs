//! The program `retake` over the model.

use std::fs;
use std::io::Write;

fn main() -> std::io::Result<()> {
    let read = |name: &str| fs::read(name).unwrap_or_default();
    let run = model::program::run(&read("score.txt"), &read("edits.txt"), &read("bank.bin"));
    std::io::stdout().write_all(&run.printed)?;
    if let Some((out, aux)) = run.samples {
        fs::write("out.f32", out)?;
        fs::write("aux.f32", aux)?;
    }
    Ok(())
}
