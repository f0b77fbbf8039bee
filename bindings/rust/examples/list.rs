//! Lists a block, as `ducat list` does: `cargo run --example list FILE`.

fn list(path: &str) -> Result<(), Box<dyn std::error::Error>> {
    let blob = std::fs::read(path)?;
    let manifest = ducatfeather::read(&blob)?;
    let (size, providers) = (manifest.block().len(), manifest.providers().len());
    let (events, templates) = (manifest.events().len(), manifest.templates().len());
    println!("crim {size} providers {providers} events {events} templates {templates}");
    for template in manifest.templates() {
        let (offset, provider, size) = (template.offset, template.provider, template.size);
        let binxml = template.binxml;
        let (start, length) = (binxml.start, binxml.bytes.len());
        println!("template {offset} provider {provider} size {size} binxml {start} {length}");
    }
    Ok(())
}

fn main() {
    let path = std::env::args().nth(1).expect("usage: list FILE");
    if let Err(error) = list(&path) {
        eprintln!("{path}: {error}");
        std::process::exit(1);
    }
}
