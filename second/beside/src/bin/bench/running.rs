//! Whole runs of the program `build` beside the program `report` of `second`.

use std::ffi::{OsStr, OsString};
use std::io::Write;
use std::process::{Command, Stdio};

use second::cards::Random;
use second::lists::Lists;
use second::pair_lists::with_choices;
use second::report::report;
use second::spans::{sequence, shuffle, widest, words_in};
use second::tables::tables;

use crate::timing::{Beside, Operation, ROUNDS};

/// The entries of a full card.
const M: usize = 504;

/// The two programs.
pub struct Programs {
    build: OsString,
    report: OsString,
}

/// The programs that the environment names.
pub fn programs() -> Result<Programs, String> {
    let named = |variable: &str| {
        let path = std::env::var_os(variable);
        path.ok_or(format!("{variable} does not name a program"))
    };
    Ok(Programs {
        build: named("BELFRYMIST_BUILD")?,
        report: named("BELFRYMIST_REPORT")?,
    })
}

/// A card that is given on standard input, and its name.
pub struct Sample {
    name: &'static str,
    card: Vec<u8>,
}

/// The S1 card, and a full card of each kind.
pub fn samples(random: &mut Random) -> Vec<Sample> {
    let s1 = tables().into_iter().find(|table| table.name == "S1");
    let s1 = s1.expect("S1 among the small tables");
    let mut pairs = with_choices(random, 4, M, M / 2);
    shuffle(random, &mut pairs);
    let words = words_in(&sequence(random, 12, M, 4), 12);
    let spans = widest(random, 12, &words);
    let sample = |name, lists: &Lists| Sample {
        name,
        card: lists.card().expect("sound lists"),
    };
    vec![
        sample("run on the S1 card", &s1.lists),
        sample("run on a pair card, m = 504", &pairs),
        sample("run on a span card, m = 504", &spans),
    ]
}

/// What a program prints for a card on its standard input.
fn printed(program: &OsStr, card: &[u8]) -> Result<String, String> {
    let fails = |error: std::io::Error| format!("{}: {error}", program.display());
    let mut command = Command::new(program);
    let piped = command.stdin(Stdio::piped()).stdout(Stdio::piped());
    let mut child = piped.spawn().map_err(fails)?;
    if let Some(mut input) = child.stdin.take() {
        input.write_all(card).map_err(fails)?;
    }
    let output = child.wait_with_output().map_err(fails)?;
    String::from_utf8(output.stdout).map_err(|error| error.to_string())
}

/// The runs on these cards, where both programs print what they must.
pub fn operations<'a>(
    programs: &'a Programs,
    samples: &'a [Sample],
) -> Result<Vec<Operation<'a>>, String> {
    for Sample { name, card } in samples {
        let lines = report(card);
        // A time means nothing where they do not agree.
        for program in [&programs.build, &programs.report] {
            let found = printed(program, card)?;
            if found != lines {
                return Err(format!("{name}: {} printed {found:?}", program.display()));
            }
        }
    }
    let run = |program: &'a OsStr, card: &'a [u8]| {
        Box::new(move || {
            printed(program, card).expect("a program that ran before");
        })
    };
    let operation = |sample: &'a Sample| Operation {
        name: sample.name.to_string(),
        beside: Beside::Second,
        rounds: ROUNDS,
        calls: 1,
        library: run(&programs.build, &sample.card),
        other: run(&programs.report, &sample.card),
    };
    Ok(samples.iter().map(operation).collect())
}
