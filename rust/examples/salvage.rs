//! Salvages a file: the record goes to standard output, the list of what was changed to standard error.
use ekimorepa::{Change, salvage};
use std::process::ExitCode;

fn main() -> ExitCode {
    let Some(file) = std::env::args_os().nth(1) else {
        eprintln!("usage: salvage FILE");
        return ExitCode::from(2);
    };
    let text = match std::fs::read(&file) {
        Ok(text) => text,
        Err(error) => {
            eprintln!("salvage: cannot read {}: {error}", file.display());
            return ExitCode::from(2);
        }
    };
    let saved = match salvage(&text) {
        Ok(saved) => saved,
        Err(error) => {
            eprintln!("{}: refused {}, of the text or of what it gives: {}", file.display(), error.number(), error.meaning());
            return ExitCode::from(1);
        }
    };
    for change in &saved.changes {
        // what the property was: the numbers are those of the lenient reading
        let was = match *change {
            Change::NamelessRemoved { property } | Change::SpelledAnew { property } | Change::GmRemoved { property } => {
                let property = saved.record().properties().nth(property).expect("a property of the record");
                let values: Vec<_> = property.values().map(|value| format!("[{}]", String::from_utf8_lossy(value.as_bytes()))).collect();
                format!(" ({}{})", property.raw_identifier(), values.concat())
            }
            _ => String::new(),
        };
        eprintln!("{}: {change}{was}", file.display());
    }
    println!("{}", saved.text);
    ExitCode::SUCCESS
}
