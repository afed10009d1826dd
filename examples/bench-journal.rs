// What `bench-journal` compares attaching with: reads a journal's file into a list of its events, and prints how many there are.
//
// It knows the events that the benchmark writes, steps and undo steps, and checks no more of the file than where each batch ends. An event
// takes 24 bytes, as in the program; with `--cfg short` as many as Rust makes of it, which are 16.
use std::fs;

#[allow(dead_code)]
struct Call {
    ty: u32,
    params: Vec<i64>,
    tape: Vec<i64>,
    ask: Option<u32>,
}

#[allow(dead_code)]
enum Cause {
    Refused(u32),
    Range,
    Limit,
    Asked,
    Victim,
    Crash,
}

#[allow(dead_code)]
#[cfg_attr(not(short), repr(C))]
enum Event {
    Begin(Box<Call>),
    Step(u64),
    Abort(u64, Cause),
    Undo(u64),
}

fn number(bytes: &[u8], at: usize) -> u32 {
    let four = bytes.get(at..at + 4).expect("four bytes");
    u32::from_be_bytes([four[0], four[1], four[2], four[3]])
}

fn main() {
    let name = std::env::args().nth(1).expect("a file's name");
    let bytes = fs::read(name).expect("the file");
    let mut place = 6 + number(&bytes, 2) as usize;
    let mut events = Vec::new();
    while bytes.get(place) == Some(&0xA5) && bytes.len() - place >= 2 {
        let end = place + 5 + number(&bytes, place + 1) as usize;
        let mut at = place + 5;
        while at < end {
            let t = u64::from(number(&bytes, at + 1));
            events.push(match bytes[at] {
                2 => Event::Step(t),
                4 => Event::Undo(t),
                _ => panic!("another event"),
            });
            at += 5;
        }
        place = end;
    }
    println!("{} events", events.len());
}
