//! Ranges on both sides of their ends: columns, rows, cellsize, lengths, heights, the no-data value, and how many values there are.

use super::{number_with, of_size, read, with, COLUMNS, FIRST, NO_DATA, ROWS, SIDE};

/// Just as many values as columns and rows, and the list as long: 1 to 128 are read, 0 and 129 are not.
#[test]
fn columns_and_rows() {
    for (columns, rows) in [(1, 1), (128, 1), (1, 128), (128, 128), (127, 3), (3, 127)] {
        assert_eq!(read(&of_size(&columns.to_string(), &rows.to_string(), columns * rows), columns * rows).0.number, 0);
    }
    for (columns, rows) in
        [(129, 1), (1, 129), (129, 128), (128, 129), (130, 2), (255, 1), (1, 256), (257, 1), (1_000, 1), (1, 40_000)]
    {
        for length in [columns * rows, 0, 1, 128] {
            let answer = read(&of_size(&columns.to_string(), &rows.to_string(), columns * rows), length).0;
            assert_eq!(answer.number, 1, "{columns} columns, {rows} rows");
        }
    }
}

/// No columns or no rows and no values: that is a raster, and none in range. With a value it is none.
#[test]
fn no_cells() {
    for (columns, rows) in
        [("0", "0"), ("0", "1"), ("1", "0"), ("0", "128"), ("000", "999999999999"), ("999999999999", "0"), ("4294967296", "0")]
    {
        for length in [0, 1] {
            assert_eq!(read(&of_size(columns, rows, 0), length).0.number, 1, "{columns} columns, {rows} rows");
            assert_eq!(read(&of_size(columns, rows, 1), length).0.number, 10, "{columns} columns, {rows} rows");
        }
    }
}

/// One value too few, one too many, none, and twice as many.
#[test]
fn how_many_values() {
    for (columns, rows) in [(1, 1), (3, 2), (2, 3), (7, 1), (1, 7), (128, 128), (129, 1)] {
        let right = columns * rows;
        for values in [0, right - 1, right + 1, right + columns, 2 * right] {
            let text = of_size(&columns.to_string(), &rows.to_string(), values);
            for length in [right, values] {
                assert_eq!(read(&text, length).0.number, 10, "{columns} columns, {rows} rows, {values} values");
            }
        }
    }
}

/// Products that are far more than the values, and the same as their count where they are cut to 32 or 64 bits.
#[test]
fn products_that_do_not_fit_a_word() {
    // 2^32 + 6; 2·2^64 + 6 and 3·2^64 + 6; six times 1 + 2^32 and 1 + 2^33
    let six = [
        ("2", "2147483651"),
        ("934887374", "39463029637"),
        ("717226326", "77158673929"),
        ("77158673929", "717226326"),
        ("6", "4294967297"),
        ("3", "8589934594"),
        ("8589934595", "2"),
    ];
    for (columns, rows) in six {
        let product: u128 = columns.parse::<u128>().unwrap() * rows.parse::<u128>().unwrap();
        assert!(product > u128::from(u32::MAX) && product as u32 == 6);
        assert_eq!(read(&of_size(columns, rows, 6), 6).0.number, 10, "{columns} columns, {rows} rows");
    }
    // no values where the product is cut to 0: 2^32, 2^64, 2^78
    for (columns, rows) in
        [("65536", "65536"), ("4294967296", "4294967296"), ("549755813888", "549755813888"), ("137438953472", "134217728")]
    {
        for values in [0, 1, 6] {
            assert_eq!(read(&of_size(columns, rows, values), values).0.number, 10, "{columns} columns, {rows} rows");
        }
    }
    // the greatest there are, and those around 2^32 and 2^64
    let large =
        ["999999999999", "999999999998", "4294967295", "4294967296", "4294967297", "2147483648", "65535", "65537", "16777216"];
    for columns in large {
        for rows in large {
            for values in [0, 1, 6] {
                assert_eq!(read(&of_size(columns, rows, values), 6).0.number, 10, "{columns} columns, {rows} rows");
            }
        }
    }
    // one of both alone is so far out that it would look small where it is cut
    for word in ["4294967299", "18446744073", "000004294967", "281474976710", "65539", "259"] {
        assert_eq!((number_with(COLUMNS, word), number_with(ROWS, word)), (10, 10), "{word}");
    }
}

#[test]
fn cellsize() {
    let fits = [
        "0.1",
        "0.100000",
        "00.10",
        "0.100001",
        "0.5",
        "1",
        "000000000001",
        "19.999999",
        "20",
        "20.0",
        "20.000000",
        "000000000020",
    ];
    for word in fits {
        assert_eq!(number_with(SIDE, word), 0, "{word}");
    }
    // 4,295,967,296 is 2^32 + 1,000,000, and 18,446,744,073,709,551,616 is 2^64
    let out = [
        "0",
        "-0",
        "0.0",
        "-0.000000",
        "0.000001",
        "0.099999",
        "0.09",
        "-0.1",
        "-0.5",
        "-1",
        "-20",
        "20.000001",
        "20.1",
        "21",
        "100",
        "4295.967296",
        "-4293.967296",
        "2148.483648",
        "-2146.483648",
        "999999999999",
        "-999999999999.999999",
        "000000000000",
    ];
    for word in out {
        assert_eq!(number_with(SIDE, word), 1, "{word}");
    }
}

/// The list has the raster's length, or it is refused, small or large.
#[test]
fn lengths() {
    for length in 0..=20 {
        assert_eq!(read(&with(&[]), length).0.number, if length == 6 { 0 } else { 2 }, "{length} words");
    }
    for length in [128, 129, 16_383, 16_385, 65_542] {
        assert_eq!(read(&with(&[]), length).0.number, 2, "{length} words");
        assert_eq!(read(&of_size("128", "128", 16_384), length).0.number, 2, "{length} words");
    }
    assert_eq!(read(&of_size("128", "128", 16_384), 0).0.number, 2);
}

/// A height on both sides of both ends, at each place of the list.
#[test]
fn heights() {
    for place in FIRST..FIRST + 6 {
        for word in ["50", "50.0", "50.000000", "000000000050", "-50", "-50.000000", "49.999999", "-49.999999"] {
            assert_eq!(number_with(place, word), 0, "{word}");
        }
        let out = [
            "50.000001",
            "-50.000001",
            "50.1",
            "51",
            "-51",
            "500",
            "-9998",
            "999999999999",
            "-999999999999.999999",
            // 2^32 and 2^31 micrometres, and a little more or less: cut to 32 bits they would be in range
            "4294.967296",
            "4295.967296",
            "-4294.967296",
            "-4293.967296",
            "4294.967295",
            "2147.483648",
            "-2147.483649",
            "8589.934592",
        ];
        for word in out {
            assert_eq!(number_with(place, word), 3, "{word}");
        }
    }
}

/// A value is no height where it is the no-data value as a number, however both are written, and wherever it stands.
#[test]
fn the_no_data_value() {
    let same = [
        ("-9999", "-9999"),
        ("-9999", "-9999.0"),
        ("-9999.000000", "-9999"),
        ("-9999", "-000000009999"),
        ("0", "0"),
        ("0", "-0"),
        ("-0", "0"),
        ("0", "0.000000"),
        ("-0.000", "00"),
        ("7", "7"),
        ("7", "7.0"),
        ("7.50", "007.5"),
        ("-0.000001", "-0.000001"),
        ("50", "50.0"),
        ("-50", "-050"),
        // out of range both for being no height and for being the no-data value
        ("50.000001", "50.000001"),
        ("999999999999.999999", "999999999999.999999"),
    ];
    for (no_data, value) in same {
        // the good raster has a 0 of its own
        let good = |place: usize| with(&[(NO_DATA, no_data), (FIRST + 4, "9"), (place, value)]);
        for place in FIRST..FIRST + 6 {
            assert_eq!(read(&good(place), 6).0.number, 3, "{value} where {no_data} is no data");
        }
    }
    let apart = [
        ("7", "7.000001"),
        ("7", "-7"),
        ("7", "6.999999"),
        ("0", "0.000001"),
        ("0", "-0.000001"),
        ("-9999", "9.999"),
        ("50.000001", "50"),
    ];
    let cut = [
        ("4294.967296", "0"),
        ("4301.967296", "7"),
        ("-4287.967296", "7"),
        ("7.5", "7"),
        ("0.7", "7"),
        ("70", "7"),
        ("0.1", "0.01"),
    ];
    for (no_data, value) in apart.into_iter().chain(cut) {
        for place in FIRST..FIRST + 6 {
            let text = with(&[(NO_DATA, no_data), (FIRST + 4, "9"), (place, value)]);
            assert_eq!(read(&text, 6).0.number, 0, "{value} where {no_data} is no data");
        }
    }
}

/// Without a no-data value 0 is a height, and -9999 is out of range.
#[test]
fn without_a_no_data_value() {
    let of = |value: &str| format!("ncols 1 nrows 1 xllcorner 0 yllcorner 0 cellsize 1 {value}").into_bytes();
    assert_eq!(read(&of("0"), 1).1, [0]);
    assert_eq!(read(&of("-9999"), 1).0.number, 3);
}

/// Refused by the very last value of a large raster, by its first and by one in the middle, the list is as lent.
#[test]
fn a_large_raster_refused_by_one_value() {
    for (columns, rows) in [(128, 128), (128, 1), (1, 128), (33, 31)] {
        let cells = columns * rows;
        let head = format!("ncols {columns} nrows {rows} xllcorner 0 yllcorner 0 cellsize 1 nodata_value 7");
        for bad in [0, columns - 1, cells / 2, cells - columns, cells - 1] {
            for (word, number) in [("50.000001", 3), ("-50.000001", 3), ("7.0", 3), ("7.0.", 10), ("7.1", 0)] {
                let mut values = vec!["2"; cells];
                values[bad] = word;
                let text = format!("{head} {}", values.join(" "));
                assert_eq!(read(text.as_bytes(), cells).0.number, number, "{word} at {bad}");
            }
        }
    }
}
