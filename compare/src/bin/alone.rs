//! Runs the inputs of the comparison on the second implementation alone, and holds it to what the format says of
//! itself: valid inputs pass; a call that is taken leaves the frame of the new message and every byte behind it; a refused
//! call changes nothing; closed forms are accepted. Takes a seed and a number of inputs.

use std::collections::BTreeMap;

use second::calls::{Answer, Call, Calls, Desk};
use second::dictionary::Dictionary;
use second::frame::Frame;
use second::generate;
use second::message::Message;
use second::random::Random;
use second::stream::cut;

fn main() {
    let mut arguments = std::env::args().skip(1).map(|word| word.parse::<u64>().expect("a number"));
    let seed = arguments.next().unwrap_or(1);
    let count = arguments.next().unwrap_or(20_000);
    let mut counted: BTreeMap<(&str, u8), u64> = BTreeMap::new();
    for case in 0..count {
        let random = &mut Random::new(seed, case);
        let valid = generate::dictionary(random).bytes();
        let dictionary = Dictionary::check(&valid).unwrap_or_else(|refusal| panic!("{seed} {case}: {refusal:?}"));

        let bytes = generate::dictionary_for_check(random, &[]);
        let answer = Dictionary::check(&bytes).err().map_or(0, |refusal| refusal.reason.number());
        *counted.entry(("check", answer)).or_default() += 1;

        if let Some((template, version)) = generate::template_and_version(random, dictionary) {
            let made = generate::frame(random, dictionary, &template, version, false);
            if made.bytes.len() <= 16_384 {
                let accepted = Frame::accept(dictionary, &made.bytes);
                assert!(accepted.is_ok(), "{seed} {case}: {:?}", accepted.err());
            }
        }
        let made = generate::frame_for_accept(random, dictionary);
        let accepted = Frame::accept(dictionary, &made.bytes);
        let answer = accepted.err().map_or(0, |refusal| refusal.reason.number());
        *counted.entry(("accept", answer)).or_default() += 1;

        let stream = generate::stream(random);
        let answer = cut(&stream).err().map_or(0, |refusal| refusal.reason.number());
        *counted.entry(("cut", answer)).or_default() += 1;

        let job = generate::job(random, dictionary);
        let mut buffer = job.buffer.clone();
        let mut desk = Desk::default();
        // The message of the form, as long as nothing is put into the buffer from outside.
        let mut message: Option<Message> = None;
        for call in Calls::new(&job.calls) {
            let (before, desk_before) = (buffer.clone(), desk);
            let answer = desk.call(dictionary, &mut buffer, &call);
            let length = desk.length();
            if answer == Answer::Accepted {
                match call {
                    Call::Open { template, version } => message = Some(Message::new(dictionary, template, version)),
                    Call::Poke { .. } => message = None,
                    _ => {}
                }
                if let Some(message) = &mut message {
                    message.call(&call);
                    assert!(buffer[..length] == message.frame(), "{seed} {case}");
                }
                assert!(matches!(call, Call::Poke { .. }) || buffer[length..] == before[length..], "{seed} {case}");
            } else {
                assert!(buffer == before && desk == desk_before, "{seed} {case}");
            }
            if answer == Answer::Accepted && call == Call::Close {
                assert!(Frame::accept(dictionary, &buffer[..length]).is_ok(), "{seed} {case}");
            }
            let number = match answer {
                Answer::Accepted => 0,
                Answer::Refused(refusal) => refusal.reason.number(),
                Answer::OutOfTurn => 255,
            };
            let name = match call {
                Call::Open { .. } => "open",
                Call::Set { .. } => "set",
                Call::Clear { .. } => "clear",
                Call::Append { .. } => "append",
                Call::Drop { .. } => "drop",
                Call::Write { .. } => "write",
                Call::Close => "close",
                Call::Reopen => "reopen",
                Call::Poke { .. } => "poke",
            };
            *counted.entry((name, number)).or_default() += 1;
        }
    }
    for ((call, answer), count) in counted {
        println!("{call} {answer}: {count}");
    }
}
