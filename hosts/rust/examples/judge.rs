//! The safe crate in a few lines: judges a certificate file for a model file, and prints each state with its block.
//! `cargo run --release --example judge -- MODEL CERTIFICATE`
use std::error::Error;
use zolkirta::Refusal;

fn main() -> Result<(), Box<dyn Error>> {
    let names: Vec<_> = std::env::args_os().skip(1).collect();
    let [model, certificate] = names.as_slice() else { return Err("usage: judge MODEL CERTIFICATE".into()) };
    let (model, certificate) = (std::fs::read(model)?, std::fs::read(certificate)?);
    let mut buffer = [0; zolkirta::STATES];
    let blocks = zolkirta::judge(&model, &certificate, &mut buffer).map_err(Refusal::into_owned)?;
    for (state, block) in blocks.iter().enumerate() {
        println!("state {state} block {block}");
    }
    Ok(())
}
