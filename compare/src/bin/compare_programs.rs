//! Compares what the programs `listing` and `editions` of the first implementation print.
//!
//!     compare-programs SEED COUNT PROGRAMS [DICTIONARY ...]
//!
//! PROGRAMS is the folder with the two programs. COUNT streams and COUNT pairs of dictionaries are made. A difference is
//! printed with its seed, its case and the input; then the status is 1.

use std::fs;
use std::io::Write;
use std::path::{Path, PathBuf};
use std::process::{Command, ExitCode, Stdio};

use second::dictionary::Dictionary;
use second::edition::earlier_edition;
use second::generate;
use second::listing::listing;
use second::random::Random;
use second::refusal::Refusal;
use second::report::{hex, Tally};

/// What a program prints that is started in a folder.
fn printed(program: &Path, words: &[&str], folder: &Path, input: &[u8]) -> std::io::Result<Vec<u8>> {
    let mut child = Command::new(program)
        .args(words)
        .current_dir(folder)
        .stdin(Stdio::piped())
        .stdout(Stdio::piped())
        .stderr(Stdio::inherit())
        .spawn()?;
    let mut stdin = child.stdin.take().expect("it is piped");
    let input = input.to_vec();
    let writer = std::thread::spawn(move || {
        // The program may end without reading all.
        let _ = stdin.write_all(&input);
    });
    let output = child.wait_with_output()?;
    writer.join().expect("the writer does not panic");
    if output.status.success() {
        Ok(output.stdout)
    } else {
        Err(std::io::Error::other(format!("{} ends with {}", program.display(), output.status)))
    }
}

fn compare_listing(seed: u64, count: u64, program: &Path, folder: &Path, given: &[Vec<u8>]) -> std::io::Result<bool> {
    let mut tally = Tally::new("listing");
    let mut lines = 0;
    for case in 0..count {
        let random = &mut Random::new(seed, case);
        let (dictionary, stream) = if random.once_in(10) {
            (generate::dictionary_for_check(random, given), vec![0; 20])
        } else {
            let dictionary = if !given.is_empty() && random.once_in(4) {
                given[random.below(given.len())].clone()
            } else {
                generate::dictionary(random).bytes()
            };
            let stream = generate::frames(random, Dictionary::unchecked(&dictionary));
            (dictionary, stream)
        };
        fs::write(folder.join("dictionary.bin"), &dictionary)?;
        let first = printed(program, &[], folder, &stream)?;
        let second = listing(&dictionary, &stream);
        lines += second.lines().count();
        tally.count(0, first == second.as_bytes(), || {
            let at = first.iter().zip(second.as_bytes()).take_while(|(one, two)| one == two).count();
            let shown = |text: &[u8]| String::from_utf8_lossy(&text[at.saturating_sub(40)..][..80]).into_owned();
            let (one, two) = (shown(&[&first[..], &[0; 80]].concat()), shown(&[second.as_bytes(), &[0; 80]].concat()));
            let (dictionary, stream) = (hex(&dictionary), hex(&stream));
            format!(
                "seed {seed}, case {case}: first ...{one:?}, second ...{two:?}\n  dictionary {dictionary}\n  \
                 stream {stream}"
            )
        });
    }
    println!("{lines} lines");
    Ok(tally.end())
}

/// The line of the program `editions`.
fn edition_line(earlier: &[u8], later: &[u8]) -> String {
    let refused = |which: u8, refusal: Refusal| format!("D {which} {} {}\n", refusal.place, refusal.reason.number());
    match (Dictionary::check(earlier), Dictionary::check(later)) {
        (Err(refusal), _) => refused(1, refusal),
        (_, Err(refusal)) => refused(2, refusal),
        (Ok(earlier), Ok(later)) if earlier_edition(earlier, later) => "earlier edition\n".into(),
        _ => "not an earlier edition\n".into(),
    }
}

fn compare_editions(seed: u64, count: u64, program: &Path, folder: &Path) -> std::io::Result<bool> {
    let mut tally = Tally::new("editions");
    for case in 0..count {
        let (earlier, later) = generate::editions(&mut Random::new(!seed, case));
        fs::write(folder.join("earlier.bin"), &earlier)?;
        fs::write(folder.join("later.bin"), &later)?;
        let first = printed(program, &["earlier.bin", "later.bin"], folder, &[])?;
        let second = edition_line(&earlier, &later);
        let answer = match second.as_bytes()[0] {
            b'e' => 0,
            b'n' => 1,
            _ => 2,
        };
        tally.count(answer, first == second.as_bytes(), || {
            let first = String::from_utf8_lossy(&first);
            let (earlier, later) = (hex(&earlier), hex(&later));
            format!(
                "seed {seed}, case {case}: first {first:?}, second {second:?}\n  earlier {earlier}\n  later {later}"
            )
        });
    }
    Ok(tally.end())
}

fn main() -> std::io::Result<ExitCode> {
    let words: Vec<String> = std::env::args().skip(1).collect();
    let [seed, count, programs, given @ ..] = &words[..] else {
        panic!("a seed, a count, a folder and dictionaries");
    };
    let given = given.iter().map(fs::read).collect::<std::io::Result<Vec<_>>>()?;
    let (seed, count) = (seed.parse().expect("a number"), count.parse().expect("a number"));
    let programs = PathBuf::from(programs).canonicalize()?;
    let folder = std::env::temp_dir().join(format!("compare-programs-{}", std::process::id()));
    fs::create_dir(&folder)?;
    let alike = compare_listing(seed, count, &programs.join("listing"), &folder, &given)
        .and_then(|alike| Ok(alike & compare_editions(seed, count, &programs.join("editions"), &folder)?));
    fs::remove_dir_all(&folder)?;
    Ok(if alike? { ExitCode::SUCCESS } else { ExitCode::FAILURE })
}
