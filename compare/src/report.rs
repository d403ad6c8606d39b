//! What the comparing programs print.

use std::collections::BTreeMap;
use std::fmt::Write;
use std::time::Instant;

use crate::refusal::Refusal;

/// Number, place and tag of a refusal.
pub type Numbers = (u8, usize, u32);

pub fn numbers(refusal: Refusal) -> Numbers {
    (refusal.reason.number(), refusal.place, refusal.tag)
}

pub fn hex(bytes: &[u8]) -> String {
    bytes.iter().fold(String::new(), |mut text, byte| {
        write!(text, "{byte:02X}").expect("a string takes all");
        text
    })
}

/// How many differences of a call are printed in full.
pub const PRINTED: u64 = 5;

/// How the answers of one call came out.
pub struct Tally {
    call: &'static str,
    began: Instant,
    pub inputs: u64,
    differences: u64,
    answers: BTreeMap<u8, u64>,
}

impl Tally {
    pub fn new(call: &'static str) -> Self {
        Tally { call, began: Instant::now(), inputs: 0, differences: 0, answers: BTreeMap::new() }
    }

    /// Counts an input and the number that the second implementation answers, 0 where it refuses nothing; where the
    /// two are not the same, prints what is to be said of it. Answers whether they are.
    pub fn count(&mut self, answer: u8, same: bool, said: impl FnOnce() -> String) -> bool {
        self.inputs += 1;
        *self.answers.entry(answer).or_default() += 1;
        if !same {
            self.differences += 1;
            if self.differences <= PRINTED {
                println!("{} differs: {}", self.call, said());
            }
        }
        same
    }

    /// Prints the numbers; answers whether there was no difference.
    pub fn end(self) -> bool {
        let seconds = self.began.elapsed().as_secs_f64();
        let (call, inputs, differences) = (self.call, self.inputs, self.differences);
        let rate = inputs as f64 / seconds;
        println!("{call}: {inputs} inputs, {differences} differences, {seconds:.1} s, {rate:.0} a second");
        let answers: Vec<String> = self.answers.iter().map(|(number, count)| format!("{number}: {count}")).collect();
        println!("  answers: {}", answers.join(", "));
        differences == 0
    }
}

/// Nanoseconds that a call takes.
pub fn nanoseconds(mut call: impl FnMut()) -> f64 {
    let mut times = 1_u32;
    loop {
        let began = Instant::now();
        (0..times).for_each(|_| call());
        let taken = began.elapsed();
        if taken.as_millis() > 300 {
            return taken.as_secs_f64() * 1e9 / f64::from(times);
        }
        times *= 2;
    }
}

/// Times the same work on both sides.
pub fn race(name: &str, first: impl FnMut(), second: impl FnMut()) {
    let (one, two) = (nanoseconds(first), nanoseconds(second));
    println!("{name}: first {one:.0} ns, second {two:.0} ns, ratio {:.2}", one / two);
}
