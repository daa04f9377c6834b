//! Step by step beside the library: each step starts from the library's own whole numbers, so that roundings do not pile up.
//!
//! How far one step may differ, from the roundings that document 01 makes:
//!
//! - A transfer is cut by less than 1 µm. A new height sums four of them: less than 4 µm.
//! - A dual edge's flow sums two transfers: less than 2 µm. A moves with each of the four flows by at most its change times U, the
//!   greatest velocity there is (out carries u, in carries a neighbour's): less than 8·U. H' is the sum of two new heights, in which
//!   the face's own transfer cancels: less than 6 µm. The true quotient q lies within ±U while the step limit holds, and
//!   A/H' − q = ((A − true A) − q·(H' − true H')) / H', so the quotient moves by less than (8·U + 6·U)/H', H' being the library's.
//!   This is why a thin film of water may differ much: an error of a transfer is divided by H'.
//! - The quotient is cut by less than 1 µm/s, the slope by less than 1 µm/s.
//! - The rise in the slope takes two new heights, the own transfer twice and six others once: less than 8 µm, so that the slope moves
//!   by less than 8·g·dt/d.
//! - Doubles have 53 bits; the largest number here, A below 10^16, is off by a few units, and the quotient by 10^-6 at most.
//!
//! Where the library's H' is 0 its velocity is 0 by rule, while the doubles may keep up to 6 µm of water there: not compared.
//!
//! On a dry bank it is 0 by rule too. Both programs look for banks by their own new heights, which differ by less than 4 µm: where one has
//! a bank, the other has one as well, or misses it by less than 4 µm of water on it and of the surface beside it above its ground. The
//! velocity of a program that has a bank must be 0; where only one has, the two are not compared.
//!
//! The doubles' two forms of the slope, that of the surfaces and that of the paper's two terms (textbook.rs), differ by what doubles lose: the
//! terms over the height are up to g·150,000,000, so that 53 bits are off by less than g·10^-7, and the slope by that times dt/d, 10^-5.

use super::scheme::{dry_bank, leaving, step, Water, GRAVITY};
use super::textbook;
use crate::rng::Rng;
use crate::trials::{single, trials};
use crate::wild::{self, Wild};
use water::{calls, Refusal};

/// A new height differs by less than this, and by what doubles lose.
const HEIGHT_OFF: f64 = 4.0 + 1e-6;

/// A velocity by one form of the slope differs from that by the other by less than this.
const FORMS_OFF: f64 = 1e-5;

/// The largest differences, and how many numbers and banks were compared.
#[derive(Default)]
pub struct Seen {
    height: f64,
    velocity: f64,
    // as a share of what is allowed
    share: f64,
    // between the two forms of the slope
    forms: f64,
    pub heights: u64,
    pub velocities: u64,
    dry: u64,
    // dry banks beside water by both programs, and by one of them only
    banks: u64,
    by_one: u64,
}

impl Seen {
    fn compare_height(&mut self, whole: f64, double: f64) {
        let off = (whole - double).abs();
        assert!(off < HEIGHT_OFF, "a height is {whole}, and {double} in doubles");
        self.height = self.height.max(off);
        self.heights += 1;
    }

    fn compare_velocity(&mut self, whole: f64, double: f64, allowed: f64) {
        let off = (whole - double).abs();
        assert!(off < allowed, "a velocity is {whole}, and {double} in doubles; {allowed} is allowed");
        self.velocity = self.velocity.max(off);
        self.share = self.share.max(off / allowed);
        self.velocities += 1;
    }

    fn compare_forms(&mut self, of_surfaces: f64, of_terms: f64) {
        let off = (of_surfaces - of_terms).abs();
        assert!(off < FORMS_OFF, "a velocity is {of_surfaces} by the surfaces, and {of_terms} by pressure and ground");
        self.forms = self.forms.max(off);
    }
}

/// Which of the two programs have a dry bank on the face between k and l. Where one of them has, the other nearly does.
fn have_bank(ground: &[i32], programs: [&Water; 2], k: usize, l: usize) -> [bool; 2] {
    let banks = programs.map(|water| dry_bank(ground, &water.heights, k, l));
    for (bank, beside) in banks.into_iter().flatten() {
        for Water { heights, .. } in programs {
            let above = heights[beside] + f64::from(ground[beside]) - f64::from(ground[bank]);
            assert!(heights[bank] < HEIGHT_OFF && above < HEIGHT_OFF, "{} µm on a bank, {above} above it", heights[bank]);
        }
    }
    banks.map(|bank| bank.is_some())
}

/// A step of the site from this water: its own, or what pumps made of it, which is in whole numbers too.
pub fn compare_step(site: &Wild, before: &Water, next: &[i32], seen: &mut Seen) {
    let ours = Water::of(&site.card, next);
    let doubles = step(&site.card, &site.ground, before);
    for (&whole, &double) in ours.heights.iter().zip(&doubles.heights) {
        seen.compare_height(whole, double);
    }
    let fastest = before.east.iter().chain(&before.north).fold(0.0, |most: f64, velocity| most.max(velocity.abs()));
    let seconds = f64::from(site.card.dt) / 1_000.0;
    let by_terms = textbook::step(&site.card, &site.ground, before).all();
    let (all_ours, all_doubles) = (ours.all(), doubles.all());
    for (place, (k, l)) in site.inner_faces().into_iter().zip(site.cells_beside()) {
        let (whole, double) = (all_ours[place], all_doubles[place]);
        // H' as the library has it
        let sum = ours.heights[k] + ours.heights[l];
        if sum == 0.0 {
            assert_eq!(whole, 0.0, "dry faces stand still");
            seen.dry += 1;
            continue;
        }
        let banks = have_bank(&site.ground, [&ours, &doubles], k, l);
        for (bank, velocity) in banks.into_iter().zip([whole, double]) {
            assert!(!bank || velocity == 0.0, "on a dry bank the velocity is {velocity}");
        }
        match banks {
            [false, false] => {
                let side = if place < site.north(0, 0) { site.card.dx } else { site.card.dy };
                let allowed = 14.0 * fastest / sum + 1.0 + 1.0 + 8.0 * GRAVITY * seconds / f64::from(side) + 1e-3;
                seen.compare_velocity(whole, double, allowed);
                seen.compare_forms(double, by_terms[place]);
            }
            [true, true] => seen.banks += 1,
            _ => seen.by_one += 1,
        }
    }
}

/// Steps on while the library accepts, comparing each step.
fn follow(mut site: Wild, steps: u64, seen: &mut Seen) {
    let mut next = vec![0; site.state.len()];
    for _ in 0..steps {
        if calls::step(site.card, &site.ground, &site.state, &[], &mut next).is_err() {
            break;
        }
        compare_step(&site, &Water::of(&site.card, &site.state), &next, seen);
        std::mem::swap(&mut site.state, &mut next);
    }
}

#[test]
fn random_sites() {
    let mut seen = Seen::default();
    trials("floats", 2_500, |rng| {
        let site = wild::good(rng);
        follow(site, 8, &mut seen);
    });
    report("random sites", &seen);
    assert!(single() || (seen.velocities > 20_000 && seen.banks > 1_000 && seen.banks > seen.by_one));
}

/// Refusal 4 is given exactly where more than the whole of some cell would leave it; nearer to the whole than 10^-9, doubles cannot tell.
#[test]
fn the_step_limit() {
    let mut told = [0; 2];
    trials("floats, the step limit", 4_000, |rng| {
        let site = wild::good(rng);
        let share = leaving(&site.card, &Water::of(&site.card, &site.state));
        let refused =
            calls::step(site.card, &site.ground, &site.state, &[], &mut vec![0; site.state.len()]) == Err(Refusal::StepLimit);
        if (share - 1.0).abs() > 1e-9 {
            assert_eq!(refused, share > 1.0, "{share} of a cell leaves it: {:?}", site.card);
            told[usize::from(refused)] += 1;
        }
    });
    println!("floats, the step limit: {} kept, {} broken", told[0], told[1]);
    assert!(single() || told.iter().all(|&times| times > 200));
}

/// A metre and more of water everywhere: here the roundings are all that is left, a few µm and µm/s.
#[test]
fn deep_water() {
    let mut seen = Seen::default();
    trials("deep water", 20, |rng: &mut Rng| {
        let card = water::Card { columns: 20, rows: 15, dx: 2_000_000, dy: 1_500_000, dt: 50, steps: 0 };
        let mut site = Wild::empty(card);
        for k in 0..site.ground.len() {
            site.ground[k] = rng.between(-100_000, 100_000) as i32;
            site.state[k] = 3_000_000 - site.ground[k] + rng.between(0, 50_000) as i32;
        }
        follow(site, 40, &mut seen);
    });
    report("deep water", &seen);
    assert!(seen.velocity < 6.0);
}

pub fn report(what: &str, seen: &Seen) {
    let Seen { height, velocity, share, forms, heights, velocities, dry, banks, by_one } = seen;
    println!("floats, {what}: {heights} heights off by at most {height:.2} µm");
    println!("floats, {what}: {velocities} velocities off by at most {velocity:.2} µm/s, {dry} dry faces left out");
    println!("floats, {what}: by pressure and ground apart the doubles' own differ by at most {forms:e} µm/s");
    println!("floats, {what}: {banks} dry banks by both programs, {by_one} by one of them left out");
    println!("floats, {what}: at most {:.0} % of what the roundings allow (a thin film of water is allowed much)", 100.0 * share);
}
