//! Random histories of both crews from an empty table. The two sets, which know no table, say what every call answers; the model of the words
//! (library.rs) says what every word is afterwards. Some calls get an unknown crew, a chamber that is none, a table that was cut, or one that
//! was spoilt: the history goes on with the table as it was.

use crate::given::Given;
use crate::library;
use crate::model::Sets;
use crate::rng::Rng;
use crate::tables;
use crate::trials::{single, trials};

/// What was seen over all histories.
#[derive(Default)]
struct Seen {
    adds: Given,
    removes: Given,
    listings: Given,
    /// adds that were done into the last place, and into one with a pin behind it
    last: u64,
    between: u64,
    /// listings of 32 chambers, and of none
    full: u64,
    empty: u64,
    /// calls at which all 64 places were taken
    taken: u64,
}

struct History<'a> {
    table: Vec<u32>,
    sets: Sets,
    /// the chambers that are asked for: few of them, so that pins meet, or many
    pool: Vec<u32>,
    seen: &'a mut Seen,
}

impl History<'_> {
    fn crew(&self, rng: &mut Rng) -> u32 {
        if rng.percent(4) {
            rng.pick(&tables::UNKNOWN)
        } else {
            rng.between(1, 2) as u32
        }
    }

    /// A chamber; more often than not one that the crew has, where `own` says so.
    fn chamber(&self, rng: &mut Rng, crew: u32, own: bool) -> u32 {
        if rng.percent(4) {
            return rng.pick(&tables::NO_CHAMBER);
        }
        let pins = self.sets.list(crew).1;
        if own && !pins.is_empty() && rng.percent(70) {
            rng.pick(&pins)
        } else {
            rng.pick(&self.pool)
        }
    }

    /// The table as it is lent: as it is, in a few calls cut (2) or spoilt (3).
    fn lent(&self, rng: &mut Rng) -> (Vec<u32>, u32) {
        match rng.below(100) {
            0..=2 => (tables::cut(rng, &self.table), 2),
            3..=5 => (tables::spoilt(rng, &self.table), 3),
            _ => (self.table.clone(), 0),
        }
    }

    fn add(&mut self, rng: &mut Rng) {
        let crew = self.crew(rng);
        let chamber = self.chamber(rng, crew, false);
        let (mut lent, hurt) = self.lent(rng);
        let number = library::add(rng, &mut lent, crew, chamber);
        self.seen.adds.count(number);
        if hurt != 0 {
            return assert_eq!(number, hurt);
        }
        assert_eq!(number, self.sets.add(crew, chamber), "add, crew {crew}, chamber {chamber}");
        if let Some(place) = (0..64).find(|&place| lent[place] != self.table[place]) {
            self.seen.last += u64::from(place == 63);
            self.seen.between += u64::from(lent[place + 1..].iter().any(|&word| word != 0));
        }
        self.table = lent;
    }

    fn remove(&mut self, rng: &mut Rng) {
        let crew = self.crew(rng);
        let chamber = self.chamber(rng, crew, true);
        let (mut lent, hurt) = self.lent(rng);
        let number = library::remove(rng, &mut lent, crew, chamber);
        self.seen.removes.count(number);
        if hurt != 0 {
            return assert_eq!(number, hurt);
        }
        assert_eq!(number, self.sets.remove(crew, chamber), "remove, crew {crew}, chamber {chamber}");
        self.table = lent;
    }

    fn list(&mut self, rng: &mut Rng) {
        let crew = self.crew(rng);
        let (lent, mut hurt) = self.lent(rng);
        let mut found = tables::found(rng);
        if rng.percent(3) {
            found.resize(rng.pick(&[0, 1, 31, 33, 64]), 5);
            hurt = 2;
        }
        let listing = library::list(rng, &lent, crew, &mut found);
        self.seen.listings.count(listing.number);
        if hurt != 0 {
            return assert_eq!((listing.number, listing.count), (hurt, 0));
        }
        let (number, chambers) = self.sets.list(crew);
        assert_eq!((listing.number, listing.count as usize), (number, chambers.len()), "listing, crew {crew}");
        assert_eq!(found[..chambers.len()], chambers[..], "listing, crew {crew}");
        self.seen.full += u64::from(chambers.len() == 32);
        self.seen.empty += u64::from(number == 0 && chambers.is_empty());
    }
}

#[test]
fn random_histories() {
    let mut seen = Seen::default();
    trials("histories", 600, |rng| {
        let many = rng.pick(&[2, 35, 40, 70, 1_000]);
        let pool = tables::chambers(rng, many);
        let mut history = History { table: vec![0; 64], sets: Sets::default(), pool, seen: &mut seen };
        for _ in 0..4 {
            // crews come and go, and for a while they mostly come, or mostly go
            let adding = rng.pick(&[15, 50, 85, 97, 97]);
            for _ in 0..90 {
                if rng.percent(25) {
                    history.list(rng);
                } else if rng.percent(adding) {
                    history.add(rng);
                } else {
                    history.remove(rng);
                }
                history.seen.taken += u64::from(history.table.iter().all(|&word| word != 0));
            }
        }
    });
    seen.adds.assert_often("adds", &[0, 2, 3, 11, 12, 13, 14], 60);
    seen.removes.assert_often("removes", &[0, 2, 3, 11, 12, 13], 60);
    seen.listings.assert_often("listings", &[0, 2, 3, 11], 60);
    let Seen { last, between, full, empty, taken, .. } = seen;
    println!("adds: {last} into the last place, {between} into one before another pin; {taken} calls on 64 taken places");
    println!("listings: {full} of 32 chambers, {empty} of none");
    assert!(single() || [&seen.adds, &seen.removes, &seen.listings].iter().all(|given| given.all() >= 20_000));
    assert!(single() || (last > 100 && between > 5_000 && full > 1_000 && empty > 1_000 && taken > 1_000));
}

/// Filled by both crews in any order, emptied in any order, and filled again: every add with room for the crew finds a place, up to the last.
#[test]
fn filled_and_emptied() {
    trials("filled", 60, |rng| {
        let (mut table, mut sets) = (vec![0; 64], Sets::default());
        for _ in 0..3 {
            let pins: Vec<(u32, u32)> =
                [1, 2].iter().flat_map(|&crew| tables::chambers(rng, 32).into_iter().map(move |c| (crew, c))).collect();
            for filling in [true, false] {
                let mut left = pins.clone();
                while !left.is_empty() {
                    let (crew, chamber) = left.swap_remove(rng.below(left.len() as u64) as usize);
                    if filling {
                        assert_eq!((library::add(rng, &mut table, crew, chamber), sets.add(crew, chamber)), (0, 0));
                    } else {
                        assert_eq!((library::remove(rng, &mut table, crew, chamber), sets.remove(crew, chamber)), (0, 0));
                    }
                }
                assert!(table.iter().all(|&word| (word != 0) == filling));
            }
        }
    });
}
