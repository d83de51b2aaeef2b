//! A seeded generator of test texts.
//!
//! Each seed gives one text, always the same: a valid derivation, a web (a
//! refutation by many steps that are used again), a text at or just past a
//! limit, or a valid text that was damaged. [`pairs`] gives each seed a base and
//! a job.

pub mod damage;
pub mod derive;
pub mod limits;
pub mod model;
pub mod pairs;
pub mod random;
pub mod unify;

use damage::{damage_bytes, damage_structure};
use derive::{derive, Derivation, Style};
use limits::limit_text;
use model::{write_lines, RULES};
use random::Random;

use crate::{Answer, Verdict, MAX_BYTES, MAX_LINES};

/// In so many of 100 seeds the text is a web.
const WEBS: usize = 8;

/// A generated text, with its answer where the generator knows it.
#[derive(Clone, Debug)]
pub struct Sample {
    pub text: Vec<u8>,
    pub expected: Option<Answer>,
}

/// The text of a seed.
pub fn generate(seed: u64) -> Vec<u8> {
    sample(seed).text
}

/// The text of a seed, with its answer where that is known.
pub fn sample(seed: u64) -> Sample {
    match Random::new(!seed).percent(WEBS) {
        true => web_sample(seed),
        false => mixed_sample(seed),
    }
}

/// A text of any of the other kinds, with its answer where that is known.
pub fn mixed_sample(seed: u64) -> Sample {
    let random = &mut Random::new(seed);
    match random.below(100) {
        0..=29 => valid(random),
        30..=39 => {
            let kind = random.below(limits::KINDS);
            let past = random.percent(50);
            limit_text(random, kind, past)
        }
        40..=52 => {
            let mut text = valid(random).text;
            damage_bytes(random, &mut text);
            unknown(text)
        }
        _ => {
            let rule = *random.pick(&RULES);
            let mut rules = some_rules(random, 3);
            rules.push(rule);
            let style = Style::small(random);
            let derivation = derive(random, style, &rules);
            unknown(damage_structure(random, &derivation, rule))
        }
    }
}

/// A valid text, with its answer.
pub fn valid_sample(seed: u64) -> Sample {
    valid(&mut Random::new(seed))
}

/// A valid text, most of whose steps are used again, with its answer.
pub fn web_sample(seed: u64) -> Sample {
    let random = &mut Random::new(seed);
    let style = Style::web(random);
    let mut rules = some_rules(random, 4);
    // These two end in the empty clause early.
    rules.retain(|rule| !matches!(*rule, "res" | "eli"));
    rules.extend(["tra", "acy", "par"]);
    written(derive(random, style, &rules))
}

fn valid(random: &mut Random) -> Sample {
    let style = if random.percent(3) {
        Style::large(random)
    } else {
        Style::small(random)
    };
    let rules = some_rules(random, 4);
    written(derive(random, style, &rules))
}

/// The written form of a derivation, shortened until it is within the limits.
fn written(mut derivation: Derivation) -> Sample {
    let text = loop {
        let lines = derivation.lines();
        let text = write_lines(&lines);
        if text.len() <= MAX_BYTES && lines.len() <= MAX_LINES {
            break text;
        }
        shorten(&mut derivation);
    };
    Sample {
        text,
        expected: Some(answer(&derivation)),
    }
}

/// Drops the last tenth of the steps, or, where there are none, of the
/// inputs: at least one line, so that the text is short enough at some time.
fn shorten(derivation: &mut Derivation) {
    let steps = derivation.steps.len();
    let inputs = derivation.inputs.len();
    if steps > 0 {
        derivation.steps.truncate(steps * 9 / 10);
    } else {
        derivation.inputs.truncate(inputs * 9 / 10);
    }
}

fn unknown(text: Vec<u8>) -> Sample {
    Sample {
        text,
        expected: None,
    }
}

/// Up to `most` random rules.
fn some_rules(random: &mut Random, most: usize) -> Vec<&'static str> {
    (0..random.between(1, most))
        .map(|_| *random.pick(&RULES))
        .collect()
}

/// The answer to a derivation's written form.
fn answer(derivation: &Derivation) -> Answer {
    let count = derivation.count();
    match derivation.first_empty() {
        Some(first) => Answer {
            verdict: Verdict::Refuted { count, first },
            rests: derivation.rests_on(first),
        },
        None => Verdict::Open { count }.into(),
    }
}
