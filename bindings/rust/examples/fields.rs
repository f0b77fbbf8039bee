//! Shows the fields of each template of a block, and where one of them is, found by its name:
//! `cargo run --example fields FILE NAME`.

fn fields(path: &str, name: &str) -> Result<(), Box<dyn std::error::Error>> {
    let blob = std::fs::read(path)?;
    let manifest = ducatfeather::read(&blob)?;
    for template in manifest.templates() {
        print!("template {}:", template.offset);
        for item in template.items() {
            match item.name {
                Some(name) => print!(" {name}"),
                None => print!(" -"),
            }
        }
        println!();
        if let Some(item) = template.item_named(name) {
            let number = template.items().take_while(|&other| other != item).count();
            let (input, output, length) = (item.input_type, item.output_type, item.length);
            // As the block has it, so that one that ran out is marked.
            let name = item.name.expect("it was found by its name");
            println!("  {name}: field {number}, types {input} and {output}, length {length}");
        }
    }
    Ok(())
}

fn main() {
    let arguments: Vec<String> = std::env::args().skip(1).collect();
    let [path, name] = &arguments[..] else {
        panic!("usage: fields FILE NAME");
    };
    if let Err(error) = fields(path, name) {
        eprintln!("{path}: {error}");
        std::process::exit(1);
    }
}
