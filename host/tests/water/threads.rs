//! No call keeps anything: threads that make every call at once, each on sites of its own, all get the model's answers.

use crate::library::{self, Question};
use crate::model;
use crate::rng::Rng;
use crate::wild::{self, Wild};
use std::thread;
use water::raw::{Card, Chamber, Window};

#[test]
fn calls_at_once() {
    let threads: Vec<_> = (0..4)
        .map(|number| {
            thread::spawn(move || {
                let rng = &mut Rng::new(number);
                for _ in 0..150 {
                    let site = wild::any(rng);
                    steps(rng, site.clone());
                    sheets(rng, &site);
                    rasters(rng, &site);
                    searches(rng, &site);
                    library::depth_text(rng, site.state.first().copied().unwrap_or(0), &mut [0; 7]);
                    library::staff(rng.below(4) as u32, rng.scaled(1, 200_000) as f64 / 1_000.0);
                }
            })
        })
        .collect();
    for thread in threads {
        thread.join().unwrap();
    }
}

fn steps(rng: &mut Rng, mut site: Wild) {
    let mut list = vec![-7; site.state.len()];
    library::step(rng, site.card, &site.ground, &site.state, &mut list);
    let pumps = wild::any_pumps(rng, &site);
    library::step_with(rng, site.card, &site.ground, &site.state, &pumps, &mut list);
    library::run_with(rng, site.card, &site.ground, &mut site.state, &pumps, &mut list);
    library::run(rng, site.card, &site.ground, &mut site.state, &mut list);
}

fn sheets(rng: &mut Rng, site: &Wild) {
    let mut bytes = vec![0xee; model::sheet_size(&wild::bounded(&site.card))];
    library::write_sheet(rng, site.card, &site.ground, &site.state, &mut bytes);
    library::read_sheet(rng, &bytes, &mut vec![-77; site.ground.len()], &mut vec![-88; site.state.len()]);
}

fn rasters(rng: &mut Rng, site: &Wild) {
    let square = Card { dy: site.card.dx, ..site.card };
    let mut text = vec![0xee; wild::bounded(&square).raster_room()];
    let wrote = library::write_raster(rng, square, &site.ground, &mut text);
    library::read_raster(rng, &text[..wrote.size as usize], &mut vec![-77; site.ground.len()]);
}

fn searches(rng: &mut Rng, site: &Wild) {
    let chambers = [Chamber { x: 0, y: 0 }, Chamber { x: site.card.dx.into(), y: site.card.dy.into() }];
    let window = Window { west: 0.0, south: 0.0, east: 2e7, north: 2e7 };
    let question = Question { card: site.card, ground: &site.ground, state: &site.state, window, depth: 1_000 };
    library::search(rng, question, &chambers, &mut [9; 2]);
    library::search_lists(rng, question, &chambers.map(|chamber| chamber.x), &chambers.map(|chamber| chamber.y), &mut [9; 2]);
}
