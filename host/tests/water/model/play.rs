//! What the sheet player prints for the bytes on its standard input.

use super::site::{cells, state_length};
use super::{depth_text, read_sheet, run};
use water::raw::Card;

pub fn play(input: &[u8]) -> Vec<u8> {
    match played(input) {
        Ok(lines) => lines,
        Err(number) => format!("refused {number}\n").into_bytes(),
    }
}

/// The lines, or the number with which the sheet isn't run.
fn played(input: &[u8]) -> Result<Vec<u8>, u32> {
    if input.len() > 16_659 {
        return Err(8);
    }
    // the reader's lists are cut to the header's size
    let byte = |place: usize| u32::from(*input.get(place).unwrap_or(&0));
    let sizes = Card { columns: byte(5), rows: byte(6), ..Card::default() };
    let mut ground = vec![0; cells(&sizes)];
    let mut state = vec![0; state_length(&sizes)];
    let heard = read_sheet(input, &mut ground, &mut state);
    if heard.number != 0 {
        return Err(heard.number);
    }
    let card = heard.card;
    if card.columns > 32 || card.rows > 32 {
        return Err(8);
    }
    let mut scratch = vec![0; state.len()];
    // a sheet has no pumps
    let tally = run(card, &ground, &mut state, &[], &mut scratch);
    let mut lines = format!("steps {} reason {} top {}\n", tally.steps, tally.reason, tally.top);
    for row in state[..cells(&card)].chunks(card.columns as usize) {
        let texts: Vec<String> = row.iter().map(|&height| text(height)).collect();
        lines += &(texts.join(", ") + "\n");
    }
    Ok(lines.into_bytes())
}

fn text(height: i32) -> String {
    let mut scratch = [0; 10];
    let length = depth_text(height, &mut scratch);
    String::from_utf8(scratch[..length].to_vec()).expect("a depth text is ASCII")
}
