//! Shows the index of a block, or writes it to a file: `cargo run --example index FILE [INDEX]`.

use ducatfeather::Index;

fn index(path: &str, to: Option<&String>) -> Result<(), Box<dyn std::error::Error>> {
    let blob = std::fs::read(path)?;
    let bytes = ducatfeather::read(&blob)?.write_index()?;
    if let Some(to) = to {
        std::fs::write(to, bytes).map_err(|error| format!("{to}: {error}"))?;
        return Ok(());
    }
    for entry in &Index::read(&bytes)? {
        print!("provider {} event {}", entry.provider, entry.event_id);
        print!(" version {} channel {}", entry.version, entry.channel);
        print!(
            " level {} opcode {} task {}",
            entry.level, entry.opcode, entry.task
        );
        println!(
            " keywords {:#x} template {}",
            entry.keywords, entry.template_offset
        );
    }
    Ok(())
}

fn main() {
    let arguments: Vec<String> = std::env::args().skip(1).collect();
    let (path, to) = match &arguments[..] {
        [path] => (path, None),
        [path, to] => (path, Some(to)),
        _ => panic!("usage: index FILE [INDEX]"),
    };
    if let Err(error) = index(path, to) {
        eprintln!("{path}: {error}");
        std::process::exit(1);
    }
}
