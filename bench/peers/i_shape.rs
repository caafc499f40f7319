//! The calls of the Rust crate i_shape 5.0.0, over whole numbers of 32 bits, as peer.hpp says. As the file src/main.rs of a package that
//! depends on i_shape and i_float it is built by cargo.

use i_float::int::point::IntPoint;
use i_shape::int::despike::DeSpikeContour;
use i_shape::int::simple::SimpleContour;
use std::io::Read;
use std::time::{Duration, Instant};

type Contour = Vec<IntPoint<i32>>;

const CALLS: [(&str, fn(&Contour) -> Option<Contour>); 2] = [
    ("simplified", |contour| contour.simplified()),
    ("despiked_contour", |contour| contour.despiked_contour()),
];

fn read(line: &str) -> Contour {
    let numbers: Vec<i32> = line
        .split_whitespace()
        .map(|word| word.parse().expect("a whole number"))
        .collect();
    numbers
        .chunks(2)
        .map(|pair| IntPoint::new(pair[0], pair[1]))
        .collect()
}

fn shown(answer: Option<Contour>) -> String {
    let Some(left) = answer else {
        return "none".into();
    };
    let words: Vec<_> = left
        .iter()
        .map(|point| format!("{} {}", point.x, point.y))
        .collect();
    words.join(" ")
}

fn main() {
    let words: Vec<_> = std::env::args().skip(1).collect();
    let Some((_, call)) = CALLS
        .iter()
        .find(|(name, _)| words.first().is_some_and(|word| word == name))
    else {
        CALLS.iter().for_each(|(name, _)| println!("{name}"));
        return;
    };
    let mut text = String::new();
    std::io::stdin().read_to_string(&mut text).expect("a text");
    let given: Vec<_> = text.lines().map(read).collect();
    if words.len() > 1 {
        let mut least = Duration::MAX;
        for _ in 0..5 {
            let start = Instant::now();
            let answers: Vec<_> = given.iter().map(call).collect();
            least = least.min(start.elapsed());
            drop(answers);
        }
        println!("{:.1}", least.as_secs_f64() * 1e3);
        return;
    }
    for contour in &given {
        println!("{}", shown(call(contour)));
    }
}
