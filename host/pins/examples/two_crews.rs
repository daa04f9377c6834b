//! A morning of two crews with one pin table: what each asks, and what it is answered. Run from host/pins:
//!
//!     cargo run --release --example two_crews

use pins::{Crew, PinTable};

enum Ask {
    Add(u32),
    Remove(u32),
    List,
}

/// What a crew asks, and its answer, as a line.
fn told(table: &mut PinTable, crew: Crew, ask: Ask) -> String {
    let (asked, answer) = match ask {
        Ask::Add(chamber) => (format!("pins {chamber}"), table.add(crew, chamber)),
        Ask::Remove(chamber) => (format!("unpins {chamber}"), table.remove(crew, chamber)),
        Ask::List => return format!("crew {} lists {:?}", crew.number(), table.pins(crew)),
    };
    let answer = match answer {
        Ok(()) => "done".to_string(),
        Err(refusal) => format!("refused: {refusal}"),
    };
    format!("crew {} {asked}: {answer}", crew.number())
}

fn morning() -> Vec<String> {
    let mut table = PinTable::new();
    let mut tell = |crew, ask| told(&mut table, crew, ask);
    let mut lines = vec![
        tell(Crew::One, Ask::Add(907)),
        tell(Crew::Two, Ask::Add(12)),
        tell(Crew::One, Ask::Add(12)),
        tell(Crew::One, Ask::Add(907)),
        tell(Crew::One, Ask::List),
        tell(Crew::Two, Ask::List),
        tell(Crew::Two, Ask::Remove(907)),
        tell(Crew::One, Ask::Remove(907)),
        tell(Crew::Two, Ask::Add(1_000)),
    ];
    // crew 1 has one pin and sets 31 more; crew 2 notices nothing of it
    for chamber in 0..31 {
        tell(Crew::One, Ask::Add(100 + chamber));
    }
    lines.push(tell(Crew::One, Ask::Add(5)));
    lines.push(tell(Crew::Two, Ask::Add(5)));
    lines.push(tell(Crew::Two, Ask::List));
    lines
}

fn main() {
    for line in morning() {
        println!("{line}");
    }
}

#[test]
fn the_morning_is_told() {
    let told = [
        "crew 1 pins 907: done",
        "crew 2 pins 12: done",
        "crew 1 pins 12: done",
        "crew 1 pins 907: refused: already pinned by this crew (13)",
        "crew 1 lists [12, 907]",
        "crew 2 lists [12]",
        "crew 2 unpins 907: refused: not pinned by this crew (13)",
        "crew 1 unpins 907: done",
        "crew 2 pins 1000: refused: a chamber of 1,000 or above (12)",
        "crew 1 pins 5: refused: this crew has 32 pins (14)",
        "crew 2 pins 5: done",
        "crew 2 lists [5, 12]",
    ];
    assert_eq!(morning(), told);
}
