//! Compares the archive liblomphachit.a with an independent reader and writer, on inputs of one kind, and prints their counts. compare/run splits the work.
//! The status is 1 at a difference, and 2 where the program was not called rightly.
use compare::tally::Tally;
use compare::{heads, inputs, kept, tails};
use std::process::exit;

const USAGE: &str = "usage: compare inputs SEED FIRST COUNT     inputs FIRST and up, COUNT of them, each made from SEED and its number
       compare tails START                   all tails of one and two octets behind a start (0 to 40)
       compare heads DOCUMENT                 a document with a head, cut before every octet and with every octet of its head replaced (0 to 23)
       compare files FILE..                  inputs that the fuzzer kept";

fn number(arg: &str) -> Result<u64, String> {
    arg.parse().map_err(|_| format!("{arg} is no number"))
}

/// Whether nothing differs in what the arguments name.
fn same(args: &[&str], tally: &mut Tally) -> Result<bool, String> {
    match args {
        ["inputs", seed, first, count] => {
            let (seed, first, count) = (number(seed)?, number(first)?, number(count)?);
            Ok((first..first + count).all(|i| inputs::compare(i, seed, tally)))
        }
        ["tails", start] => {
            let start = number(start)? as usize;
            tails::starts().get(start).map(|(s, behind)| tails::compare(s, behind, tally)).ok_or_else(|| format!("no start {start}"))
        }
        ["heads", document] => match number(document)? as usize {
            i if i < heads::DOCUMENTS => Ok(heads::compare(i, tally)),
            i => Err(format!("no document {i}")),
        },
        ["files", files @ ..] => kept::compare(files, tally),
        _ => Err(USAGE.to_string()),
    }
}

fn main() {
    let args: Vec<String> = std::env::args().skip(1).collect();
    let args: Vec<&str> = args.iter().map(String::as_str).collect();
    let mut tally = Tally::default();
    let same = same(&args, &mut tally).unwrap_or_else(|e| {
        eprintln!("compare: {e}");
        exit(2)
    });
    tally.print();
    exit(i32::from(!same));
}
