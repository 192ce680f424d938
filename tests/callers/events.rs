//! Writes the events of standard input, in pieces of so many bytes as its argument says, as `parselog` writes
//! calls.
use ansi_proved::{Event, Sequence};
use std::io::Read;

fn hex(bytes: &[u8]) -> String {
    match bytes {
        [] => "-".to_string(),
        _ => bytes.iter().map(|byte| format!("{byte:02X}")).collect(),
    }
}

fn line(name: &str, sequence: &Sequence) -> String {
    let fields = |group: &Vec<u16>| group.iter().map(u16::to_string).collect::<Vec<_>>().join(":");
    let groups: Vec<String> = sequence.parameters.iter().map(fields).collect();
    let fields = match name {
        "esc_dispatch" => String::new(),
        _ => format!(" [{}]", groups.join(";")),
    };
    let collected = hex(&sequence.intermediates);
    format!("{name}{fields} {collected} {} {:02X}", sequence.ignored, sequence.action)
}

fn main() {
    let size: usize = std::env::args().nth(1).and_then(|word| word.parse().ok()).expect("a size");
    let mut stream = Vec::new();
    std::io::stdin().read_to_end(&mut stream).expect("standard input is read");
    for event in ansi_proved::events(stream.chunks(size)) {
        match event {
            Event::Text(text) => text.chars().for_each(|c| println!("print U+{:04X}", c as u32)),
            Event::Execute(byte) => println!("execute {byte:02X}"),
            Event::Hook(sequence) => println!("{}", line("hook", &sequence)),
            Event::Put(byte) => println!("put {byte:02X}"),
            Event::Unhook => println!("unhook"),
            Event::Osc(parts, bell) => {
                let parts: Vec<String> = parts.iter().map(|part| hex(part)).collect();
                println!("osc_dispatch {bell} {}", parts.join(" "));
            }
            Event::Csi(sequence) => println!("{}", line("csi_dispatch", &sequence)),
            Event::Esc(sequence) => println!("{}", line("esc_dispatch", &sequence)),
        }
    }
}
