//! A thread of 640,000 bytes does for every call, as both pages say: here the thread has no more than that for itself and the call.

use super::cases::{self, Call};
use super::STEPS;
use std::thread;
use water::{Reading, Refusal};

/// What both pages promise, by the sentence in which they do.
fn promised() -> usize {
    super::both_say("A thread that has 640,000 bytes does for every call, whatever the input.");
    640_000
}

fn answers(case: &str, answer: Result<(), Refusal>, call: Call) {
    let thread = thread::Builder::new().stack_size(promised()).spawn(call).unwrap();
    assert_eq!(thread.join().unwrap(), answer, "{case}");
}

#[test]
fn steps_and_runs_with_pumps() {
    for (name, call) in STEPS.into_iter().chain([("water_run", cases::run as super::Made)]) {
        for side in [128, 32, 16, 8] {
            let with = |site: crate::wild::Wild, pumps: usize| {
                let list = cases::pumps(&site, 2 * pumps);
                call(site, list)
            };
            for pumps in [0, 1, 64] {
                answers(name, Ok(()), with(cases::site(side), pumps));
                answers(name, Err(Refusal::StepLimit), with(cases::too_fast(side), pumps));
            }
            answers(name, Err(Refusal::TooHigh), with(cases::full(side), 64));
            answers(name, Err(Refusal::Card), with(cases::site(side), 65));
            answers(name, Err(Refusal::Value), with(cases::bad(side), 64));
        }
    }
}

#[test]
fn all_other_calls() {
    answers("search", Ok(()), cases::search(cases::site(128), 1_000, 1_000));
    answers("search of lists", Ok(()), cases::search_lists(cases::site(128), 1_000, 1_000));
    answers("read", Ok(()), cases::read(cases::site(128)));
    answers("write", Ok(()), cases::write(cases::site(128)));
    answers("text", Ok(()), cases::text(50_000_000));
    answers("staff", Ok(()), cases::staff(Reading::Feet(164.0)));
    answers("read a raster", Ok(()), cases::read_raster(cases::raster(128), 16_384));
    answers("write a raster", Ok(()), cases::write_raster(cases::deep(128)));
}
