//! Both engines side by side on each sheet of examples/, or on the sheets that are named, for as many steps as each wants: how many steps
//! gave the same, to the last word, and in the end the textbook engine's numbers for one face. Run from host/:
//!
//!     cargo run --release --example both_engines [SHEET..]

use water::Site;

/// What the textbook engine works out for a face, named as in document 02: the terms, H' and their quotient.
struct Terms {
    place: String,
    pressure: i64,
    ground: i64,
    new_sum: i64,
}

impl Terms {
    /// Of the face east of a cell, which is not the last of its row.
    fn east_of(site: &Site, cell: usize) -> Terms {
        let columns = site.card().columns as usize;
        let place = format!("columns {} and {} of row {}", cell % columns, cell % columns + 1, cell / columns);
        let [hk, hl] = [cell, cell + 1].map(|cell| i64::from(site.heights()[cell]));
        let [zk, zl] = [cell, cell + 1].map(|cell| i64::from(site.ground()[cell]));
        Terms { place, pressure: hl * hl - hk * hk, ground: (hk + hl) * (zl - zk), new_sum: hk + hl }
    }

    fn tell(&self) {
        let Terms { place, pressure, ground, new_sum } = self;
        let quotient = (pressure + ground) / new_sum;
        println!("  between {place}: pressure term {pressure}, ground term {ground}, H' {new_sum}, quotient {quotient}");
    }
}

/// The eastward face with water on both sides whose pressure term is greatest in size, if there is one.
fn greatest(site: &Site) -> Option<Terms> {
    let wet = |cell: usize| site.heights()[cell] > 0;
    let columns = site.card().columns as usize;
    let inner = (0..site.card().cells()).filter(|cell| (cell + 1) % columns != 0 && wet(*cell) && wet(cell + 1));
    inner.map(|cell| Terms::east_of(site, cell)).max_by_key(|terms| terms.pressure.abs())
}

fn main() -> std::io::Result<()> {
    let mut sheets: Vec<String> = std::env::args().skip(1).collect();
    if sheets.is_empty() {
        let names = ["dam-break", "pond-at-rest", "pond-with-shore", "basin-fills"];
        sheets = names.map(|name| format!("../examples/{name}.sheet")).to_vec();
    }
    for sheet in sheets {
        let mut site = Site::read_sheet(&std::fs::read(&sheet)?).expect("a good sheet");
        let (mut textbook, steps) = (site.clone(), site.card().steps);
        let alike = (0..steps).filter(|_| site.step() == textbook.step_textbook() && site == textbook).count();
        println!("{sheet}: {alike} of {steps} steps the same by both engines, to the last word");
        if let Some(terms) = greatest(&site) {
            terms.tell();
        }
        assert_eq!(alike, steps as usize, "the engines differ");
    }
    Ok(())
}
