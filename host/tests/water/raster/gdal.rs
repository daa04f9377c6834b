//! GDAL beside the library: it reads the rasters that we write, and we read those that it writes, value for value. Where GDAL's programs are
//! not installed nothing is tried; host/check says so.
//!
//! GDAL takes heights for floats of 32 bits unless it is told otherwise (`AAIGRID_DATATYPE`), and loses micrometres. It writes as many places
//! as a float has, and exponents, which no raster here has, unless it is told how many (`DECIMAL_PRECISION`). And it always writes the corner
//! and cellsize with twelve places, of which six are too many (10): `cut` takes them off the corner, which is dropped, and off cellsize
//! where they are noughts, and nothing else.

use super::{read, Survey};
use crate::library;
use crate::rng::Rng;
use std::path::{Path, PathBuf};
use std::process::Command;
use water::raw::{Card, Raster};

/// A folder of its own, which goes when the test does.
struct Folder(PathBuf);

impl Folder {
    fn new(name: &str) -> Folder {
        let path = std::env::temp_dir().join(format!("water-{name}-{}", std::process::id()));
        std::fs::create_dir_all(&path).expect("a folder for GDAL's files");
        Folder(path)
    }

    fn file(&self, name: &str) -> PathBuf {
        self.0.join(name)
    }
}

impl Drop for Folder {
    fn drop(&mut self) {
        let _ = std::fs::remove_dir_all(&self.0);
    }
}

fn installed() -> bool {
    let found = Command::new("gdal_translate").arg("--version").output().is_ok();
    if !found {
        println!("gdal is not installed: not tried");
    }
    found
}

/// GDAL's copy of a file in another format, by doubles.
fn translate(from: &Path, to: &Path, options: &[&str]) {
    let run = Command::new("gdal_translate")
        .args(["--config", "AAIGRID_DATATYPE", "Float64", "-q"])
        .args(options)
        .args([from, to])
        .output()
        .expect("gdal_translate starts");
    assert!(run.status.success(), "gdal_translate {options:?}: {}", String::from_utf8_lossy(&run.stderr));
}

/// A site with equal sides, whose ground has values of every length, and its raster.
fn written(rng: &mut Rng) -> (Card, Vec<i32>, Vec<u8>) {
    let survey = Survey::good(rng);
    let side = survey.side as u32;
    let card = Card { columns: survey.columns as u32, rows: survey.rows as u32, dx: side, dy: side, dt: 1, steps: 0 };
    let ground: Vec<i32> = survey.values.iter().map(|&value| value as i32).collect();
    let mut text = vec![0; card.raster_room()];
    let wrote = library::write_raster(rng, card, &ground, &mut text);
    assert_eq!(wrote.number, 0);
    text.truncate(wrote.size as usize);
    (card, ground, text)
}

/// The words of a ground in the order of a text, the northern row first.
fn northern_first(card: &Card, ground: &[i32]) -> Vec<i32> {
    ground.chunks(card.columns as usize).rev().flatten().copied().collect()
}

#[test]
fn gdal_reads_what_is_written() {
    if !installed() {
        return;
    }
    let folder = Folder::new("gdal-reads");
    let rng = &mut Rng::new(1);
    for _ in 0..20 {
        let (card, ground, text) = written(rng);
        std::fs::write(folder.file("ours.asc"), text).unwrap();
        // a plain file of doubles
        translate(&folder.file("ours.asc"), &folder.file("theirs.bin"), &["-of", "ENVI", "-ot", "Float64"]);
        let bytes = std::fs::read(folder.file("theirs.bin")).unwrap();
        let doubles: Vec<f64> = bytes.chunks(8).map(|bytes| f64::from_ne_bytes(bytes.try_into().expect("eight bytes"))).collect();
        // both are the double that is nearest to so many metres
        let expected: Vec<f64> = northern_first(&card, &ground).iter().map(|&level| f64::from(level) / 1e6).collect();
        assert_eq!(doubles, expected);
        let told = Command::new("gdalinfo").arg(folder.file("ours.asc")).output().expect("gdalinfo starts");
        let told = String::from_utf8_lossy(&told.stdout).into_owned();
        let side = f64::from(card.dx) / 1e6;
        for line in [format!("Size is {}, {}", card.columns, card.rows), format!("Pixel Size = ({side:.15},-{side:.15})")] {
            assert!(told.lines().any(|found| found == line), "{line}: {told}");
        }
    }
}

/// What stands behind the sixth place of the corner, and noughts there of cellsize, cut off.
fn cut(text: &str) -> String {
    let shorter = |line: &str, any: bool| match line.split_once('.') {
        Some((whole, part)) if part.len() > 6 && (any || part[6..].bytes().all(|byte| byte == b'0')) => {
            format!("{whole}.{}", &part[..6])
        }
        _ => line.to_string(),
    };
    let lines = text.lines().enumerate().map(|(k, line)| if k < 5 { shorter(line, k < 4) } else { line.to_string() });
    lines.map(|line| line + "\n").collect()
}

/// What GDAL writes of a raster of ours with these options, cut.
fn by_gdal(folder: &Folder, text: &[u8], options: &[&str]) -> String {
    std::fs::write(folder.file("ours.asc"), text).unwrap();
    translate(&folder.file("ours.asc"), &folder.file("theirs.asc"), &[&["-of", "AAIGrid"], options].concat());
    cut(&std::fs::read_to_string(folder.file("theirs.asc")).unwrap())
}

#[test]
fn we_read_what_gdal_writes() {
    if !installed() {
        return;
    }
    let folder = Folder::new("gdal-writes");
    let rng = &mut Rng::new(2);
    let mut placed = 0;
    for _ in 0..20 {
        let (card, ground, text) = written(rng);
        let right = (Raster { number: 0, columns: card.columns, rows: card.rows, side: card.dx }, ground);
        let options = ["-co", "DECIMAL_PRECISION=6", "-a_nodata", "-9999"];
        for options in [&options[..2], &options] {
            let theirs = by_gdal(&folder, &text, options);
            assert_eq!(read(theirs.as_bytes(), right.1.len()), right, "{theirs}");
        }
        // a corner that is no whole number of micrometres
        let odd = String::from_utf8_lossy(&text).replace("xllcorner 0\n", "xllcorner 431250.1234567\n");
        let theirs = by_gdal(&folder, odd.as_bytes(), &options[..2]);
        assert!(theirs.contains("431250.123456"), "{theirs}");
        assert_eq!(read(theirs.as_bytes(), right.1.len()), right, "{theirs}");
        // somewhere else: GDAL works the side out from the corners, by doubles, and these sides stay whole
        if [250_000, 1_000_000, 20_000_000].contains(&card.dx) {
            let (west, north, side) = (431_000.5, 5_812_040.25, f64::from(card.dx) / 1e6);
            let (east, south) = (west + side * f64::from(card.columns), north - side * f64::from(card.rows));
            let corners = [west, north, east, south].map(|edge: f64| edge.to_string());
            let corners: Vec<&str> = corners.iter().map(|edge| &edge[..]).collect();
            let place = [&options[..2], &["-a_ullr"], &corners].concat();
            let theirs = by_gdal(&folder, &text, &place);
            assert!(theirs.contains("431000.5"), "{theirs}");
            assert_eq!(read(theirs.as_bytes(), right.1.len()), right, "{theirs}");
            placed += 1;
        }
    }
    assert!(placed > 5, "{placed} lay somewhere else");
}

/// Whole metres without a point, and a no-data value that occurs.
#[test]
fn we_read_whole_numbers_and_refuse_no_data() {
    if !installed() {
        return;
    }
    let folder = Folder::new("gdal-whole");
    let text = b"ncols 3\nnrows 2\nxllcorner 0\nyllcorner 0\ncellsize 2\n1 -2 3\n40 -50 0\n";
    let read_by = |options: &[&str]| read(by_gdal(&folder, text, &[&["-ot", "Int32"], options].concat()).as_bytes(), 6);
    let metres = [40, -50, 0, 1, -2, 3].map(|metres| 1_000_000 * metres);
    assert_eq!(read_by(&[]), (Raster { number: 0, columns: 3, rows: 2, side: 2_000_000 }, metres.to_vec()));
    assert_eq!(read_by(&["-a_nodata", "-9999"]).0.number, 0);
    assert_eq!(read_by(&["-a_nodata", "3"]).0.number, 3);
}
