//! Inputs of the fuzzer: the first octet chooses the room that is lent, the rest is the document. Those that reached new code are kept in fuzz/corpus.
use crate::archive::Lent;
use crate::tally::Tally;
use crate::words::{RECORD, TABLES};
use crate::{differ, report};

/// The room that the first octet chooses, and the document; None where there is no octet.
pub fn input(octets: &[u8]) -> Option<(Lent, &[u8])> {
    let (first, document) = octets.split_first()?;
    let usual = Lent { records: usize::from(*first) * RECORD + usize::from(*first) % RECORD, tables: TABLES, counts: 10, calls: 2, seed: u32::from(*first) };
    let lent = match first {
        250 => Lent { tables: TABLES - 1, ..usual },
        251 => Lent { tables: TABLES + 1, ..usual },
        252 => Lent { counts: 9, ..usual },
        253 => Lent { counts: 11, ..usual },
        254 | 255 => Lent { records: 2000 * RECORD, ..usual },
        _ => usual,
    };
    Some((lent, document))
}

/// The inputs in these files; false at a difference.
pub fn compare(files: &[&str], tally: &mut Tally) -> Result<bool, String> {
    for file in files {
        let octets = std::fs::read(file).map_err(|e| format!("{file}: {e}"))?;
        let (lent, document) = input(&octets).ok_or_else(|| format!("{file} is empty"))?;
        let (compared, refusal) = differ::document(document, &lent);
        tally.count("kept by the fuzzer", "read", refusal);
        if let Err(e) = compared {
            println!("in {file}");
            report::read(document, &lent, &e, differ::document);
            return Ok(false);
        }
    }
    Ok(true)
}
