//! Compares check, accept and find with the first implementation's calls for C, and holds what forms leave in their
//! buffers to what the first accepts.
//!
//!     compare-gateway SEED COUNT [DICTIONARY ...]     COUNT inputs for each of the four
//!     compare-gateway speed DICTIONARY FRAMES         how long each side takes for the same input
//!
//! The dictionaries, which must pass the check, take part beside the random ones. A difference is printed with its
//! seed, its case and the input; then the status is 1.

use std::collections::BTreeMap;
use std::fmt::Debug;
use std::process::ExitCode;

use second::calls::{Answer, Call, Calls, Desk};
use second::dictionary::Dictionary;
use second::frame::{Frame, What};
use second::generate::{self, Parts};
use second::random::Random;
use second::refusal::Reason;
use second::report::{hex, numbers, race, Numbers, Tally};
use second::stream::{cut, Cut};

/// The first implementation.
mod first {
    extern "C" {
        fn entrypoint_check(dictionary: *const u8, length: usize, place: *mut usize, tag: *mut u32) -> u8;
        fn entrypoint_accept(
            dictionary: *const u8,
            dictionary_length: usize,
            bytes: *const u8,
            length: usize,
            place: *mut usize,
            tag: *mut u32,
        ) -> u8;
        fn entrypoint_find(
            dictionary: *const u8,
            dictionary_length: usize,
            bytes: *const u8,
            length: usize,
            group: u32,
            entry: usize,
            tag: u32,
            kind: *mut u8,
            at: *mut usize,
            found: *mut usize,
            place: *mut usize,
            refused_tag: *mut u32,
        ) -> u8;
    }

    /// What stands where nothing is to be written.
    const PLACE: usize = 0xA5A5_A5A5;
    const TAG: u32 = 0x5A5A_5A5A;
    const KIND: u8 = 0xA5;

    /// Nothing refused, or number, place and tag; none of both if something was written that should stand.
    pub type Answer = Result<(), (u8, usize, u32)>;

    fn answer(number: u8, place: usize, tag: u32) -> Option<Answer> {
        match number {
            0 => (place == PLACE && tag == TAG).then_some(Ok(())),
            _ => Some(Err((number, place, tag))),
        }
    }

    pub fn check(dictionary: &[u8]) -> Option<Answer> {
        let (mut place, mut tag) = (PLACE, TAG);
        // Sound: the pointers are not null and the lengths are theirs; the call keeps nothing.
        let number = unsafe { entrypoint_check(dictionary.as_ptr(), dictionary.len(), &mut place, &mut tag) };
        answer(number, place, tag)
    }

    pub fn accept(dictionary: &[u8], bytes: &[u8]) -> Option<Answer> {
        let (mut place, mut tag) = (PLACE, TAG);
        // Sound: as above.
        let number = unsafe {
            entrypoint_accept(dictionary.as_ptr(), dictionary.len(), bytes.as_ptr(), bytes.len(), &mut place, &mut tag)
        };
        answer(number, place, tag)
    }

    /// Kind, place and length of what is found.
    pub type Found = Result<(u8, usize, usize), (u8, usize, u32)>;

    pub fn find(dictionary: &[u8], bytes: &[u8], (group, entry, tag): (u32, u64, u32)) -> Option<Found> {
        let (mut kind, mut at, mut length, mut place, mut refused) = (KIND, PLACE, PLACE, PLACE, TAG);
        // Sound: as above.
        let number = unsafe {
            entrypoint_find(
                dictionary.as_ptr(),
                dictionary.len(),
                bytes.as_ptr(),
                bytes.len(),
                group,
                entry as usize,
                tag,
                &mut kind,
                &mut at,
                &mut length,
                &mut place,
                &mut refused,
            )
        };
        match answer(number, place, refused)? {
            Ok(()) => Some(Ok((kind, at, length))),
            Err(refusal) => (kind == KIND && at == PLACE && length == PLACE).then_some(Err(refusal)),
        }
    }
}

fn check(dictionary: &[u8]) -> first::Answer {
    Dictionary::check(dictionary).map(|_| ()).map_err(numbers)
}

fn accept(dictionary: &[u8], bytes: &[u8]) -> first::Answer {
    Frame::accept(Dictionary::unchecked(dictionary), bytes).map(|_| ()).map_err(numbers)
}

fn find(dictionary: &[u8], bytes: &[u8], (group, entry, tag): Question) -> first::Found {
    let frame = Frame::accept(Dictionary::unchecked(dictionary), bytes);
    let found = frame.and_then(|frame| frame.read(group, entry as usize, tag)).map_err(numbers)?;
    let kind = match found.what {
        What::Absent => 0,
        What::Value(_) => 1,
        What::Data => 2,
    };
    Ok((kind, found.at, found.bytes.len()))
}

/// What the dictionary of a case is.
#[derive(Clone, Copy, Debug, PartialEq, Eq, PartialOrd, Ord)]
enum Standing {
    /// It passes the check.
    Passes,
    /// It passes the first round of the check and not the second.
    Shaped,
    /// It does not pass the first round.
    Any,
}

fn standing(dictionary: &[u8]) -> Standing {
    match (Dictionary::check_shape(dictionary), Dictionary::check(dictionary)) {
        (Err(_), _) => Standing::Any,
        (_, Err(_)) => Standing::Shaped,
        (_, Ok(_)) => Standing::Passes,
    }
}

/// A group, an entry and a tag.
type Question = (u32, u64, u32);

/// A dictionary, and frames under it with a question each.
struct Scene {
    dictionary: Vec<u8>,
    frames: Vec<(Vec<u8>, Question)>,
}

fn sound_dictionary(random: &mut Random, given: &[Vec<u8>]) -> Vec<u8> {
    if !given.is_empty() && random.once_in(3) {
        given[random.below(given.len())].clone()
    } else {
        generate::dictionary(random).bytes()
    }
}

/// Now and then the dictionary is spoiled after the frames were made.
fn scene(random: &mut Random, given: &[Vec<u8>]) -> Scene {
    let sound = sound_dictionary(random, given);
    let dictionary = Dictionary::unchecked(&sound);
    let frames = (0..16).map(|_| {
        let made = generate::frame_for_accept(random, dictionary);
        let number = made.bytes.get(6..8).map_or(0, |two| u16::from_le_bytes([two[0], two[1]]));
        let question = match dictionary.templates().find(|template| template.number == number) {
            Some(template) => generate::question(random, &template),
            None => (0, 0, 1),
        };
        (made.bytes, question)
    });
    let mut frames: Vec<_> = frames.collect();
    let dictionary = match random.below(10) {
        0 | 1 => {
            let mut parts = Parts::of(&sound);
            generate::spoil(random, &mut parts);
            parts.bytes()
        }
        2 => {
            let mut bytes = sound;
            generate::damage_dictionary(random, &mut bytes);
            bytes
        }
        // A dictionary of hardly any bytes, and frames with a schema id that may be made of them.
        3 if random.once_in(20) => {
            let mut bytes = sound;
            random.fill(&mut bytes[3..7]);
            bytes.truncate(random.below(9));
            let id = bytes.get(3).copied().unwrap_or(0);
            for (frame, _) in &mut frames {
                if let Some(place) = frame.get_mut(8..10) {
                    place.copy_from_slice(&random.one(&[[id, 0], [0, id], [0, 0]]));
                }
            }
            bytes
        }
        // Another of those given: an earlier or later edition.
        3 if given.contains(&sound) => given[random.below(given.len())].clone(),
        _ => sound,
    };
    Scene { dictionary, frames }
}

fn compare_check(seed: u64, count: u64, given: &[Vec<u8>]) -> bool {
    let mut tally = Tally::new("check");
    for case in 0..count {
        let random = &mut Random::new(seed, case);
        let dictionary = generate::dictionary_for_check(random, given);
        let (first, second) = (first::check(&dictionary), check(&dictionary));
        let answer = second.err().map_or(0, |refusal| refusal.0);
        tally.count(answer, first == Some(second), || {
            let dictionary = hex(&dictionary);
            format!("seed {seed}, case {case}: first {first:?}, second {second:?}\n  dictionary {dictionary}")
        });
    }
    tally.end()
}

/// Compares a call on a frame and a question about it.
fn compare_frames<T: PartialEq + Debug>(
    name: &'static str,
    seed: u64,
    count: u64,
    given: &[Vec<u8>],
    first: impl Fn(&[u8], &[u8], Question) -> Option<Result<T, Numbers>>,
    second: impl Fn(&[u8], &[u8], Question) -> Result<T, Numbers>,
) -> bool {
    let mut tally = Tally::new(name);
    let mut standings: BTreeMap<Standing, (u64, u64)> = BTreeMap::new();
    for case in 0.. {
        if tally.inputs >= count {
            break;
        }
        let random = &mut Random::new(seed ^ name.len() as u64, case);
        let Scene { dictionary, frames } = scene(random, given);
        let standing = standing(&dictionary);
        let counted = standings.entry(standing).or_default();
        for (bytes, question) in &frames {
            let first = first(&dictionary, bytes, *question);
            let second = second(&dictionary, bytes, *question);
            let answer = second.as_ref().err().map_or(0, |refusal| refusal.0);
            let same = tally.count(answer, first.as_ref() == Some(&second), || {
                let (frame, dictionary) = (hex(bytes), hex(&dictionary));
                format!(
                    "seed {seed}, case {case}: first {first:?}, second {second:?}\n  group, entry, tag {question:?}\n  \
                     frame {frame}\n  dictionary ({standing:?}) {dictionary}"
                )
            });
            counted.0 += 1;
            counted.1 += u64::from(!same);
        }
    }
    let alike = tally.end();
    for (standing, (inputs, differences)) in standings {
        println!("  dictionary {standing:?}: {inputs} inputs, {differences} differences");
    }
    alike
}

/// Holds what the second implementation's forms leave in their buffers to what the first accepts: after each call that
/// is taken the frame is accepted, but for required fields that are absent; it is after `close`; and `close` is refused
/// as acceptance is. A form refuses 25 where the first does not accept its bytes.
fn compare_filled(seed: u64, count: u64, given: &[Vec<u8>]) -> bool {
    let mut tally = Tally::new("filled");
    for case in 0.. {
        if tally.inputs >= count {
            break;
        }
        let random = &mut Random::new(!seed, case);
        let dictionary = sound_dictionary(random, given);
        let job = generate::job(random, Dictionary::unchecked(&dictionary));
        let mut buffer = job.buffer.clone();
        let mut desk = Desk::default();
        for (step, call) in Calls::new(&job.calls).enumerate() {
            let before = desk;
            let answer = desk.call(Dictionary::unchecked(&dictionary), &mut buffer, &call);
            let held = match (call, answer, before, desk) {
                (Call::Poke { .. }, ..) | (_, Answer::OutOfTurn, ..) => continue,
                (_, Answer::Refused(refusal), ..) => match refusal.reason {
                    Reason::RequiredAbsent | Reason::NotThisForm => before.length(),
                    _ => continue,
                },
                (_, Answer::Accepted, _, desk) => desk.length(),
            };
            let frame = buffer.get(..held);
            let first = frame.and_then(|frame| first::accept(&dictionary, frame));
            let (number, same) = match answer {
                Answer::Accepted if call == Call::Close => (0, first == Some(Ok(()))),
                Answer::Accepted => (0, matches!(first, Some(Ok(()) | Err((17, ..))))),
                Answer::Refused(refusal) if refusal.reason == Reason::RequiredAbsent => {
                    (17, first == Some(Err(numbers(refusal))))
                }
                // A required field that is absent may stand in front of the fault, and another template or version
                // may be accepted as such.
                _ => (25, first != Some(Ok(())) || !before.is_of(&buffer)),
            };
            tally.count(number, same, || {
                let (dictionary, calls, start) = (hex(&dictionary), hex(&job.calls), hex(&job.buffer));
                format!(
                    "seed {seed}, case {case}, call {step}: {call:?} answers {answer:?}, the first accepts {first:?}\n  \
                     dictionary {dictionary}\n  calls {calls}\n  buffer at first {start}"
                )
            });
        }
    }
    tally.end()
}

fn speed(dictionary: &[u8], stream: &[u8]) {
    use std::hint::black_box;
    race(
        "check",
        || _ = black_box(first::check(black_box(dictionary))),
        || _ = black_box(check(black_box(dictionary))),
    );
    let mut rest = stream;
    while let Ok(Cut::Frame { frame, rest: behind }) = cut(rest) {
        let name = format!("accept of template {}, {} bytes", u16::from_le_bytes([frame[6], frame[7]]), frame.len());
        race(
            &name,
            || _ = black_box(first::accept(black_box(dictionary), black_box(frame))),
            || _ = black_box(accept(black_box(dictionary), black_box(frame))),
        );
        rest = behind;
    }
}

fn main() -> ExitCode {
    let words: Vec<String> = std::env::args().skip(1).collect();
    let file = |name: &String| std::fs::read(name).unwrap_or_else(|error| panic!("{name}: {error}"));
    match &words[..] {
        [word, dictionary, frames] if word == "speed" => {
            speed(&file(dictionary), &file(frames));
            ExitCode::SUCCESS
        }
        [seed, count, given @ ..] => {
            let given: Vec<Vec<u8>> = given.iter().map(file).collect();
            assert!(given.iter().all(|bytes| Dictionary::check(bytes).is_ok()), "a given dictionary does not pass");
            let number = |word: &String| word.parse::<u64>().expect("a number");
            let (seed, count) = (number(seed), number(count));
            let alike = [
                compare_check(seed, count, &given),
                compare_frames(
                    "accept",
                    seed,
                    count,
                    &given,
                    |dictionary, bytes, _| first::accept(dictionary, bytes),
                    |dictionary, bytes, _| accept(dictionary, bytes),
                ),
                compare_frames("find", seed, count, &given, first::find, find),
                compare_filled(seed, count, &given),
            ];
            if alike == [true; 4] {
                ExitCode::SUCCESS
            } else {
                ExitCode::FAILURE
            }
        }
        _ => panic!("a seed, a count and dictionaries; or speed, a dictionary and frames"),
    }
}
