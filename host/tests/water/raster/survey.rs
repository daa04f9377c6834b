//! Random rasters as surveyors might send them, each number in any of its spellings, and texts that were changed on their way.

use crate::rng::Rng;

/// What a raster says, in micrometres, the northern row first.
#[derive(Clone, Debug)]
pub struct Survey {
    pub columns: usize,
    pub rows: usize,
    pub side: i64,
    pub no_data: Option<i64>,
    pub values: Vec<i64>,
}

impl Survey {
    /// One in range, most of them small.
    pub fn good(rng: &mut Rng) -> Survey {
        let most = if rng.percent(4) { 24 } else { 4 };
        let (mut columns, mut rows) = (rng.between(1, most) as usize, rng.between(1, most) as usize);
        if rng.percent(2) {
            (columns, rows) = rng.pick(&[(128, 1), (1, 128), (127, 2)]);
        }
        let any = rng.scaled(100_000, 20_000_000);
        let side = rng.pick(&[100_000, 250_000, 1_000_000, 20_000_000, 19_999_999, any]);
        let values = (0..columns * rows).map(|_| level(rng)).collect();
        let no_data = rng.percent(60).then(|| no_data(rng));
        let mut survey = Survey { columns, rows, side, no_data, values };
        // a no-data value in range must not occur
        for value in &mut survey.values {
            if Some(*value) == survey.no_data {
                *value = if *value < 0 { *value + 1 } else { *value - 1 };
            }
        }
        survey
    }

    /// Makes one thing wrong that refusals 1 and 3 speak of.
    pub fn hurt(&mut self, rng: &mut Rng) {
        match rng.below(4) {
            0 => self.side = rng.pick(&[0, 99_999, 20_000_001, -1_000_000, 4_295_967_296, 999_999_999_999_999_999]),
            1 => {
                (self.columns, self.rows) = rng.pick(&[(129, 1), (1, 129), (0, 3), (3, 0), (0, 0), (200, 2)]);
                self.values.resize(self.columns * self.rows, 7);
            }
            2 => self
                .change(rng, |rng| rng.pick(&[50_000_001, -50_000_001, 4_294_967_296, -9_999_000_000, 999_999_999_999_999_999])),
            _ => {
                let no_data = self.no_data.unwrap_or(0);
                self.no_data = Some(no_data);
                self.change(rng, |_| no_data);
            }
        }
    }

    fn change(&mut self, rng: &mut Rng, value: impl Fn(&mut Rng) -> i64) {
        let count = self.values.len() as u64;
        if count > 0 {
            self.values[rng.below(count) as usize] = value(rng);
        }
    }

    /// Its text: every number in one of its spellings, keys in any case, whatever parts words between them.
    pub fn text(&self, rng: &mut Rng) -> Vec<u8> {
        let count = |rng: &mut Rng, number: usize| {
            let digits = number.to_string();
            "0".repeat(few(rng, 12 - digits.len())) + &digits
        };
        let mut words = vec![cased(rng, "ncols"), count(rng, self.columns), cased(rng, "nrows"), count(rng, self.rows)];
        for key in ["xllcorner", "yllcorner"] {
            let corner = rng.pick(&[0, 500_000_000_000, -12_000_000, 999_999_999_999_999_999]);
            words.extend([cased(rng, key), spelled(rng, corner)]);
        }
        words.extend([cased(rng, "cellsize"), spelled(rng, self.side)]);
        if let Some(no_data) = self.no_data {
            words.extend([cased(rng, "NODATA_value"), spelled(rng, no_data)]);
        }
        words.extend(self.values.iter().map(|&value| spelled(rng, value)));
        let kind = rng.below(4);
        let mut text = if rng.percent(20) { part(rng, kind) } else { vec![] };
        for word in words {
            text.extend(word.bytes());
            text.extend(part(rng, kind));
        }
        if rng.percent(40) {
            // no line end at the end
            while text.last().map_or(false, |last| b" \t\r\n".contains(last)) {
                text.pop();
            }
        }
        text
    }
}

/// A height, often an end of the range or near 0.
fn level(rng: &mut Rng) -> i64 {
    match rng.below(6) {
        0 => rng.pick(&[0, 1, -1, 50_000_000, -50_000_000, 999_999, -999_999, 1_000_000, -1_000_000, -500_000]),
        1 => rng.between(-2_000_000, 2_000_000),
        2 => 1_000_000 * rng.between(-50, 50),
        3 => 10_000 * rng.between(-5_000, 5_000),
        _ => rng.between(-50_000_000, 50_000_000),
    }
}

fn no_data(rng: &mut Rng) -> i64 {
    rng.pick(&[-9_999_000_000, -9_999_000_000, 0, 1_000_000, -1, 50_000_001, -32_768_000_000, 999_999_999_999_999_999, 7])
}

/// 0 to so many, most often none.
fn few(rng: &mut Rng, most: usize) -> usize {
    if rng.percent(85) {
        0
    } else {
        rng.between(0, most as i64) as usize
    }
}

/// One of the spellings of so many micrometres as metres.
fn spelled(rng: &mut Rng, micrometres: i64) -> String {
    let size = micrometres.unsigned_abs();
    let whole = (size / 1_000_000).to_string();
    let part = format!("{:06}", size % 1_000_000);
    let least = part.trim_end_matches('0').len();
    let more = rng.between(least as i64, 6) as usize;
    let places = rng.pick(&[least, least, least.max(1), more, 6]);
    // 0 may have a minus
    let minus = micrometres < 0 || (micrometres == 0 && rng.percent(20));
    let mut word = if minus { "-".to_string() } else { String::new() };
    word += &"0".repeat(few(rng, 12 - whole.len()));
    word += &whole;
    if places > 0 {
        word += ".";
        word += &part[..places];
    }
    word
}

/// A key in any letter case.
fn cased(rng: &mut Rng, key: &str) -> String {
    match rng.below(4) {
        0 => key.to_ascii_uppercase(),
        1 => key.chars().map(|letter| if rng.percent(50) { letter.to_ascii_uppercase() } else { letter }).collect(),
        _ => key.to_string(),
    }
}

/// What parts two words: of one kind, or of any.
fn part(rng: &mut Rng, kind: u64) -> Vec<u8> {
    match kind {
        0 => b" ".to_vec(),
        1 => b"\n".to_vec(),
        2 => b"\r\n".to_vec(),
        _ => (0..rng.between(1, 4)).map(|_| rng.pick(b" \t\n\r")).collect(),
    }
}

/// Changes a text in one of many ways: bytes, words, digits, signs, points, letters, ends.
pub fn hurt_text(rng: &mut Rng, text: &mut Vec<u8>) {
    const ODD: &[u8] = b"0123456789--..+eE,_ \t\n\r\x0b\x0c\0nNcC\xa0\xff";
    if text.is_empty() {
        return;
    }
    let place = rng.below(text.len() as u64) as usize;
    match rng.below(14) {
        // one bit, one byte, one byte more, one less, one twice
        0 => text[place] ^= 1 << rng.below(8),
        1 => text[place] = rng.pick(ODD),
        2 => text.insert(place, rng.pick(ODD)),
        3 => drop(text.remove(place)),
        4 => text.insert(place, text[place]),
        // cut short, or its beginning lost
        5 => text.truncate(place),
        6 => drop(text.drain(..place)),
        // two bytes exchanged: a point moved, a minus
        7 if place > 0 => text.swap(place - 1, place),
        // the case of a letter
        8 => {
            let letters: Vec<usize> = (0..text.len()).filter(|&k| text[k].is_ascii_alphabetic()).collect();
            if !letters.is_empty() {
                text[rng.pick(&letters)] ^= 0x20;
            }
        }
        _ => hurt_words(rng, text),
    }
}

/// Changes its words: two exchanged, one lost, one twice, one with more digits or a sign.
fn hurt_words(rng: &mut Rng, text: &mut Vec<u8>) {
    let mut words: Vec<Vec<u8>> =
        text.split(|byte| b" \t\n\r".contains(byte)).filter(|word| !word.is_empty()).map(<[u8]>::to_vec).collect();
    if words.is_empty() {
        return;
    }
    let (one, other) = (rng.below(words.len() as u64) as usize, rng.below(words.len() as u64) as usize);
    match rng.below(8) {
        0 => words.swap(one, other),
        1 => drop(words.remove(one)),
        2 => words.insert(one, words[other].clone()),
        3 => words[one] = words[other].clone(),
        4 => words[one]
            .splice(0..0, rng.pick(&[&b"-"[..], b"+", b"0", b"00000000", b"000000000000", b"1"]).to_vec())
            .for_each(drop),
        5 => words[one].extend(rng.pick(&[&b"0"[..], b"000", b".0", b".000000", b".", b"e0", b"5", b".1234567", b"-"])),
        6 => {
            if let Some(point) = words[one].iter().position(|&byte| byte == b'.') {
                let to = rng.below(words[one].len() as u64) as usize;
                words[one].remove(point);
                words[one].insert(to, b'.');
            }
        }
        // one of the first words, where the counts stand
        _ => {
            let first = rng.below(words.len().min(12) as u64) as usize;
            words[first] = rng.pick(&[&b"0"[..], b"1", b"2", b"128", b"129", b"4294967297", b"NODATA_value", b"ncols"]).to_vec();
        }
    }
    *text = words.join(&b' ');
}
