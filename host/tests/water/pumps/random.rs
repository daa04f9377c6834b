//! Random and hostile sites with random and hostile pumps: a step by both engines and a run of each, every word of every list compared.

use super::{ran, stepped};
use crate::given::Given;
use crate::lent::room;
use crate::rng::Rng;
use crate::trials::{single, trials};
use crate::{library, model, wild};
use water::raw::Tally;

#[test]
fn random_calls() {
    let (mut steps, mut runs) = (Given::default(), Given::default());
    // inlets past the top, pumps that found too little, runs stopped on their way
    let (mut past, mut short, mut on_the_way) = (0, 0, 0);
    trials("pumps", 20_000, |rng| {
        let mut site = wild::any(rng);
        let pumps = wild::any_pumps(rng, &site);
        let mut next = room(rng, site.state.len());
        let number = library::step_with(rng, site.card, &site.ground, &site.state, &pumps, &mut next);
        steps.count(number);
        if number == 0 || number > 3 {
            let moved = model::pumped(&pumps, &site.state);
            let asked: i128 = pumps.chunks_exact(2).map(|pump| i128::from(-pump[1]).max(0)).sum();
            past += u64::from(number == 5 && moved.is_none());
            short += u64::from(moved.map_or(false, |moved| moved.taken < asked));
        }
        let mut scratch = room(rng, site.state.len());
        let tally = library::run_with(rng, site.card, &site.ground, &mut site.state, &pumps, &mut scratch);
        runs.count(tally.reason);
        on_the_way += u64::from(tally.reason > 3 && tally.steps > 0 && tally.added + tally.taken > 0);
    });
    steps.assert_often("pumped steps", &[0, 1, 2, 3, 4, 5, 7], 60);
    runs.assert_often("pumped runs", &[0, 1, 2, 3, 4, 5, 7], 60);
    println!("pumps: {past} inlets past the top, {short} lists found too little, {on_the_way} runs were stopped on their way");
    assert!(single() || (past > 200 && short > 1_000 && on_the_way > 300));
}

/// Lists of words without any sense on good sites: lengths around every boundary, words of every size; some are good by chance.
#[test]
fn nonsense() {
    let mut given = Given::default();
    trials("pumps of nonsense", 8_000, |rng| {
        let site = wild::good(rng);
        let length = match rng.below(8) {
            0 => rng.pick(&[0, 1, 127, 128, 129, 130, 131]),
            1 => rng.below(140),
            _ => rng.below(7),
        };
        let word = |rng: &mut Rng| {
            let small = rng.pick(&[32, 44, 56, 60, 63]);
            (rng.next() as i64 >> small) as i32
        };
        let mut pumps: Vec<i32> = (0..length).map(|_| word(rng)).collect();
        if rng.percent(60) {
            // cells by their size alone
            for cell in pumps.iter_mut().step_by(2) {
                *cell = (i64::from(*cell) & 3) as i32;
            }
        }
        let (number, next) = stepped(&site, &pumps);
        let mut one_step = site.clone();
        one_step.card.steps = 1;
        let (tally, state) = ran(&one_step, &pumps);
        assert_eq!((tally.reason, tally.steps), (number, u32::from(number == 0)), "a run of one step is the step");
        assert!(state == if number == 0 { next } else { site.state });
        given.count(number);
    });
    given.assert_some("pumps of nonsense", &[0, 1, 2, 3, 4, 5, 7], 80);
}

/// An amount of 0 anywhere, as often as there may be: the same as no pumps.
#[test]
fn pumps_of_amount_0() {
    trials("pumps of amount 0", 1_500, |rng| {
        let site = wild::good(rng);
        let mut pumps = wild::pumps(rng, &site);
        pumps.iter_mut().skip(1).step_by(2).for_each(|amount| *amount = 0);
        assert_eq!(stepped(&site, &pumps), stepped(&site, &[]));
        let (tally, state) = ran(&site, &pumps);
        assert_eq!((tally, state), ran(&site, &[]));
        assert_eq!(tally, Tally { added: 0, taken: 0, ..tally });
    });
}

/// An empty list: number and words are those of the model's step that knows no pumps.
#[test]
fn empty_lists() {
    trials("empty lists", 1_500, |rng| {
        let site = wild::good(rng);
        let (number, next) = stepped(&site, &[]);
        assert_eq!(if number == 0 { Ok(next) } else { Err(number) }, model::advance_unpumped(&site.site()));
    });
}
