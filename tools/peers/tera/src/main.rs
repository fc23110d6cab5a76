//! Renders a page in Tera as often as tools/benchmark asks, and prints the least nanoseconds of a page, and then the page.
use std::env;
use std::fs;
use std::time::Instant;
use tera::{Context, Tera};

fn main() {
    let words: Vec<String> = env::args().collect();
    let text = fs::read_to_string(&words[1]).expect("the page");
    let data = fs::read_to_string(&words[2]).expect("the data");
    let rounds: u32 = words[3].parse().expect("the number of rounds");
    let context = Context::from_value(serde_json::from_str(&data).expect("JSON")).expect("an object");
    let mut engine = Tera::default();
    engine.autoescape_on(vec![]);
    engine.add_raw_template("page", &text).expect("a template");
    let mut best = u128::MAX;
    for _ in 0..rounds {
        let start = Instant::now();
        engine.render("page", &context).expect("a page");
        best = best.min(start.elapsed().as_nanos());
    }
    println!("{best}");
    print!("{}", engine.render("page", &context).expect("a page"));
}
