//! The window: edges on a chamber, one float beside it, odd floats in each place, turned inside out.

use super::{above, ask, below, edge_of, odd_floats, site, ALL};
use water::raw::{Chamber, Found, Window};

fn count(window: Window, chamber: Chamber) -> u32 {
    let (found, _) = ask(&site(), window, 0, &[chamber], 1);
    assert_eq!(found.number, 0);
    found.count
}

#[test]
fn edges_on_and_beside_a_chamber() {
    for x in [0, 1, 999_999, 1_000_000, 2_999_999, 3_000_000] {
        for y in [0, 1, 2_000_000, 4_000_000] {
            let chamber = Chamber { x, y };
            let on = Window { west: x as f64, south: y as f64, east: x as f64, north: y as f64 };
            assert_eq!(count(on, chamber), 1);
            // one float up: out of the window in the west and in the south; one float down: in the east and in the north
            assert_eq!(count(Window { west: above(x as f64), east: 4e6, ..on }, chamber), 0);
            assert_eq!(count(Window { west: below(x as f64), ..on }, chamber), 1);
            assert_eq!(count(Window { south: above(y as f64), north: 5e6, ..on }, chamber), 0);
            assert_eq!(count(Window { south: below(y as f64), ..on }, chamber), 1);
            assert_eq!(count(Window { east: below(x as f64), west: -1.0, ..on }, chamber), 0);
            assert_eq!(count(Window { east: above(x as f64), ..on }, chamber), 1);
            assert_eq!(count(Window { north: below(y as f64), south: -1.0, ..on }, chamber), 0);
            assert_eq!(count(Window { north: above(y as f64), ..on }, chamber), 1);
        }
    }
}

#[test]
fn odd_floats_in_each_place() {
    let corner = [Chamber { x: 0, y: 0 }, Chamber { x: 1_500_000, y: 2_500_000 }];
    for place in 0..4 {
        for odd in odd_floats() {
            let mut window = ALL;
            *edge_of(&mut window, place) = odd;
            let (found, _) = ask(&site(), window, 0, &corner, 2);
            if odd.is_finite() {
                assert_eq!(found.number, 0, "{odd} in place {place}");
            } else {
                assert_eq!(found, Found { number: 3, count: 0 }, "{odd} in place {place}");
            }
        }
    }
    // every kind of NaN: quiet, signalling, negative
    for bits in [0x7ff8_0000_0000_0000, 0x7ff0_0000_0000_0001, 0xfff8_0000_0000_0000, 0xffff_ffff_ffff_ffff] {
        let found = ask(&site(), Window { south: f64::from_bits(bits), ..ALL }, 0, &corner, 2).0;
        assert_eq!(found, Found { number: 3, count: 0 });
    }
}

#[test]
fn nought_has_one_place_on_the_line() {
    let corner = Chamber { x: 0, y: 0 };
    let tiny = f64::from_bits(1);
    assert_eq!(count(Window { west: -0.0, south: -0.0, east: -0.0, north: -0.0 }, corner), 1);
    assert_eq!(count(Window { west: tiny, ..ALL }, corner), 0);
    assert_eq!(count(Window { west: -tiny, ..ALL }, corner), 1);
    assert_eq!(count(Window { south: tiny, ..ALL }, corner), 0);
    assert_eq!(count(Window { east: -tiny, west: -1.0, ..ALL }, corner), 0);
    assert_eq!(count(Window { north: -tiny, south: -1.0, ..ALL }, corner), 0);
    assert_eq!(count(Window { north: tiny, ..ALL }, corner), 1);
}

#[test]
fn a_window_turned_inside_out_holds_nothing() {
    let middle = Chamber { x: 1_500_000, y: 1_500_000 };
    assert_eq!(count(ALL, middle), 1);
    assert_eq!(count(Window { west: ALL.east, east: ALL.west, ..ALL }, middle), 0);
    assert_eq!(count(Window { south: ALL.north, north: ALL.south, ..ALL }, middle), 0);
    assert_eq!(count(Window { west: above(1_500_000.0), east: below(1_500_000.0), ..ALL }, middle), 0);
}
