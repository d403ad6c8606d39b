//! Compares the cutter and lists of calls on forms with the first implementation's `compared_cut` and `compared_run`.
//!
//!     compare-forms SEED COUNT [DICTIONARY ...]     COUNT streams, and lists with COUNT calls in all
//!     compare-forms speed DICTIONARY                how long each side takes for the same lists
//!
//! `README.md` has the encoding of calls and answers. A difference is printed with its seed, its case and the input;
//! then the status is 1.

use std::process::ExitCode;

use second::calls::{self, Calls, ANSWER};
use second::dictionary::Dictionary;
use second::generate::{self, Job, Parts};
use second::random::Random;
use second::report::{hex, numbers, race, Numbers, Tally};
use second::stream::{self, Cut};

/// The first implementation.
mod first {
    use super::Numbers;

    extern "C" {
        fn compared_cut(
            stream: *const u8,
            length: usize,
            kind: *mut u8,
            count: *mut usize,
            place: *mut usize,
            tag: *mut u32,
        ) -> u8;
        fn compared_run(
            dictionary: *const u8,
            dictionary_length: usize,
            buffer: *mut u8,
            buffer_length: usize,
            calls: *const u8,
            calls_length: usize,
            answers: *mut u8,
            answers_length: usize,
        ) -> u8;
    }

    /// The kind, 0 for bytes that are missing and 1 for a frame, and their count.
    pub fn cut(stream: &[u8]) -> Result<(u8, usize), Numbers> {
        let (mut kind, mut count, mut place, mut tag) = (0xA5, 0xA5A5, 0, 0);
        // Sound: the pointers are not null and the length is that of the bytes; the call keeps nothing.
        let number =
            unsafe { compared_cut(stream.as_ptr(), stream.len(), &mut kind, &mut count, &mut place, &mut tag) };
        match number {
            0 => Ok((kind, count)),
            _ => Err((number, place, tag)),
        }
    }

    pub fn run(dictionary: &[u8], buffer: &mut [u8], calls: &[u8], answers: &mut [u8]) -> u8 {
        // Sound: as above; the two slices that are written to are borrowed mutably.
        unsafe {
            compared_run(
                dictionary.as_ptr(),
                dictionary.len(),
                buffer.as_mut_ptr(),
                buffer.len(),
                calls.as_ptr(),
                calls.len(),
                answers.as_mut_ptr(),
                answers.len(),
            )
        }
    }
}

fn cut(bytes: &[u8]) -> Result<(u8, usize), Numbers> {
    match stream::cut(bytes).map_err(numbers)? {
        Cut::Missing(count) => Ok((0, count)),
        Cut::Frame { frame, .. } => Ok((1, frame.len())),
    }
}

/// What a run leaves: how it ended, the buffer, the answers.
#[derive(PartialEq)]
struct Left {
    ended: u8,
    buffer: Vec<u8>,
    answers: Vec<u8>,
}

fn left(run: impl Fn(&[u8], &mut [u8], &[u8], &mut [u8]) -> u8, dictionary: &[u8], job: &Job, calls: &[u8]) -> Left {
    let mut buffer = job.buffer.clone();
    let mut answers = vec![0xA5; ANSWER * job.starts.len()];
    let ended = run(dictionary, &mut buffer, calls, &mut answers);
    Left { ended, buffer, answers }
}

fn second(dictionary: &[u8], buffer: &mut [u8], calls: &[u8], answers: &mut [u8]) -> u8 {
    calls::run(dictionary, buffer, calls, answers) as u8
}

fn compare_cut(seed: u64, count: u64) -> bool {
    let mut tally = Tally::new("cut");
    for case in 0..count {
        let stream = generate::stream(&mut Random::new(seed, case));
        let (first, second) = (first::cut(&stream), cut(&stream));
        tally.count(second.err().map_or(0, |refusal| refusal.0), first == second, || {
            format!("seed {seed}, case {case}: first {first:?}, second {second:?}\n  stream {}", hex(&stream))
        });
    }
    tally.end()
}

/// A dictionary for forms: mostly one that passes the check, and one that it was before it was spoiled.
fn dictionaries(random: &mut Random, given: &[Vec<u8>]) -> (Vec<u8>, Vec<u8>) {
    let sound = if !given.is_empty() && random.once_in(4) {
        given[random.below(given.len())].clone()
    } else {
        generate::dictionary(random).bytes()
    };
    let mut used = sound.clone();
    if random.once_in(12) {
        let mut parts = Parts::of(&used);
        generate::spoil(random, &mut parts);
        used = parts.bytes();
    }
    (sound, used)
}

fn compare_run(seed: u64, count: u64, given: &[Vec<u8>]) -> bool {
    let mut tally = Tally::new("calls");
    for case in 0.. {
        if tally.inputs >= count {
            break;
        }
        let random = &mut Random::new(!seed, case);
        let (sound, dictionary) = dictionaries(random, given);
        let job = generate::job(random, Dictionary::unchecked(&sound));
        // One list in eight is also run up to each of its calls, to compare the buffer after each.
        let all = [job.calls.len()];
        let ends = if random.once_in(8) { &job.starts[..] } else { &[] };
        for &end in ends.iter().chain(&all) {
            let calls = &job.calls[..end];
            let one = left(first::run, &dictionary, &job, calls);
            let two = left(second, &dictionary, &job, calls);
            let same = one == two;
            let last = end == job.calls.len();
            for (step, call) in Calls::new(calls).enumerate().filter(|_| last) {
                let of = |left: &Left| <[u8; ANSWER]>::try_from(&left.answers[ANSWER * step..][..ANSWER]).ok();
                let (first, second) = (of(&one), of(&two));
                tally.count(second.map_or(0, |answer| answer[1]), first == second, || {
                    format!("seed {seed}, case {case}, call {step}: {call:?}: first {first:?}, second {second:?}")
                });
            }
            if !same {
                tally.count(0, false, || {
                    format!(
                        "seed {seed}, case {case}, ended {} and {}\n  dictionary {}\n  buffer at first {}\n  calls {}\n  \
                         buffer of the first {}\n  buffer of the second {}",
                        one.ended,
                        two.ended,
                        hex(&dictionary),
                        hex(&job.buffer),
                        hex(calls),
                        hex(&one.buffer),
                        hex(&two.buffer)
                    )
                });
            }
        }
    }
    tally.end()
}

/// Times lists of calls under one dictionary.
fn speed(dictionary: &[u8]) {
    let jobs: Vec<Job> =
        (0..200).map(|case| generate::job(&mut Random::new(1, case), Dictionary::unchecked(dictionary))).collect();
    let count: usize = jobs.iter().map(|job| job.starts.len()).sum();
    let mut answers = vec![0; ANSWER * 300];
    let mut work = jobs.clone();
    race(
        &format!("{count} calls in 200 lists"),
        || {
            for (job, at_first) in work.iter_mut().zip(&jobs) {
                job.buffer.copy_from_slice(&at_first.buffer);
                first::run(dictionary, &mut job.buffer, &job.calls, &mut answers);
            }
        },
        {
            let mut work = jobs.clone();
            let mut answers = vec![0; ANSWER * 300];
            let jobs = &jobs;
            move || {
                for (job, at_first) in work.iter_mut().zip(jobs) {
                    job.buffer.copy_from_slice(&at_first.buffer);
                    second(dictionary, &mut job.buffer, &job.calls, &mut answers);
                }
            }
        },
    );
}

fn main() -> ExitCode {
    let words: Vec<String> = std::env::args().skip(1).collect();
    let file = |name: &String| std::fs::read(name).unwrap_or_else(|error| panic!("{name}: {error}"));
    match &words[..] {
        [word, dictionary] if word == "speed" => {
            speed(&file(dictionary));
            ExitCode::SUCCESS
        }
        [seed, count, given @ ..] => {
            let given: Vec<Vec<u8>> = given.iter().map(file).collect();
            assert!(given.iter().all(|bytes| Dictionary::check(bytes).is_ok()), "a given dictionary does not pass");
            let number = |word: &String| word.parse::<u64>().expect("a number");
            let (seed, count) = (number(seed), number(count));
            if [compare_cut(seed, count), compare_run(seed, count, &given)] == [true; 2] {
                ExitCode::SUCCESS
            } else {
                ExitCode::FAILURE
            }
        }
        _ => panic!("a seed, a count and dictionaries; or speed and a dictionary"),
    }
}
