//! Shows the templates that each event's key gives: `cargo run --example events FILE`.

use ducatfeather::Kind;

fn events(path: &str) -> Result<(), Box<dyn std::error::Error>> {
    let blob = std::fs::read(path)?;
    let manifest = ducatfeather::read(&blob)?;
    for table in manifest.tables().filter(|table| table.kind == Kind::Evnt) {
        let number = table.provider;
        let provider = manifest.providers().get(number as usize);
        let guid = provider.expect("a table has a provider").guid;
        for event in manifest.events().part(table.entries) {
            print!("event {} of provider {number}:", event.identifier);
            for template in manifest.templates_for(&event.key(guid))? {
                print!(" {template}");
            }
            println!();
        }
    }
    Ok(())
}

fn main() {
    let arguments: Vec<String> = std::env::args().skip(1).collect();
    let [path] = &arguments[..] else {
        panic!("usage: events FILE");
    };
    if let Err(error) = events(path) {
        eprintln!("{path}: {error}");
        std::process::exit(1);
    }
}
