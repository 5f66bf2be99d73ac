//! The shortest input that still shows a difference, by leaving parts out and by making octets smaller.
use std::cell::Cell;

type Differs<'a, T> = &'a dyn Fn(&[T]) -> bool;

/// How many items may be tried in all: a long input takes longer to compare, so it gets fewer attempts.
const ITEMS: usize = 1_500_000;
/// What an attempt costs beside its items: the tables are compared too.
const ATTEMPT: usize = 25;
/// Up to this length runs are left out from every place, and pairs: there are not too many.
const SHORT: usize = 150;

struct Search<'a, T> {
    differs: Differs<'a, T>,
    left: Cell<usize>,
}

impl<'a, T: Clone> Search<'a, T> {
    fn new(differs: Differs<'a, T>) -> Search<'a, T> {
        Search { differs, left: Cell::new(ITEMS) }
    }

    /// Whether this input differs too; nothing does when all attempts are used up.
    fn shows(&self, input: &[T]) -> bool {
        let cost = ATTEMPT + input.len();
        self.left.set(self.left.get().saturating_sub(cost));
        self.left.get() > 0 && (self.differs)(input)
    }

    fn first_of(&self, tries: impl Iterator<Item = Vec<T>>) -> Option<Vec<T>> {
        tries.take_while(|_| self.left.get() > 0).find(|t| self.shows(t))
    }

    /// Leaves out runs, from long to short, then pairs, as long as the difference stays.
    fn shorter(&self, input: &[T]) -> Vec<T> {
        let mut best = self.without_runs(input);
        while let Some(less) = self.without_pair(&best) {
            best = self.without_runs(&less);
        }
        best
    }

    fn without_runs(&self, input: &[T]) -> Vec<T> {
        let mut best = input.to_vec();
        let mut run = best.len();
        while run > 0 {
            let mut at = 0;
            while at < best.len() && self.left.get() > 0 {
                let mut less = best.clone();
                less.drain(at..(at + run).min(best.len()));
                if self.shows(&less) {
                    best = less;
                } else {
                    at += if best.len() > SHORT { run } else { 1 };
                }
            }
            run = if best.len() > SHORT { run / 2 } else { (run - 1).min(best.len()) };
        }
        best
    }

    /// Pairs, since a start needs its end.
    fn without_pair(&self, best: &[T]) -> Option<Vec<T>> {
        let n = if best.len() > SHORT { 0 } else { best.len() };
        let pairs = (0..n).flat_map(|i| (i + 1..n).map(move |j| (i, j)));
        self.first_of(pairs.map(|(i, j)| [&best[..i], &best[i + 1..j], &best[j + 1..]].concat()))
    }
}

impl<'a> Search<'a, u8> {
    fn simpler_start(&self, best: &[u8], starts: &[Vec<u8>]) -> Option<Vec<u8>> {
        let places = starts.iter().flat_map(|s| (s.len() + 1..best.len()).rev().map(move |i| (s, i)));
        self.first_of(places.map(|(s, i)| [&s[..], &best[i..]].concat()))
    }

    /// A smaller octet together with one left out, as a length and its text need.
    fn smaller_and_shorter(&self, best: &[u8]) -> Option<Vec<u8>> {
        let n = if best.len() > SHORT { 0 } else { best.len() };
        let pairs = (0..n).flat_map(|i| (0..n).filter(move |j| *j != i).map(move |j| (i, j)));
        let tries = pairs.filter(|(i, _)| best[*i] > 0).map(|(i, j)| {
            let mut less = best.to_vec();
            less[i] -= 1;
            less.remove(j);
            less
        });
        self.first_of(tries)
    }

    /// Up to four octets in a row as 0, for text has characters of up to four, or one octet with a bit less.
    fn plainer(&self, best: &[u8]) -> Option<Vec<u8>> {
        let n = best.len();
        let runs = (1..=4).rev().flat_map(|run| (0..n).map(move |i| (i, (i + run).min(n))));
        let zeros = runs.map(|(i, j)| [&best[..i], &vec![0; j - i], &best[j..]].concat());
        let bits = (0..n * 8).map(|b| {
            let mut less = best.to_vec();
            less[b / 8] &= !(128 >> (b % 8));
            less
        });
        self.first_of(zeros.chain(bits).filter(|t| t != best))
    }
}

/// For items that can only be left out.
pub fn shorter<T: Clone>(input: &[T], differs: Differs<T>) -> Vec<T> {
    Search::new(differs).shorter(input)
}

/// For octets: also simple starts instead of what stands before a place, and smaller octets, until nothing helps.
pub fn octets(input: &[u8], starts: &[Vec<u8>], differs: Differs<u8>) -> Vec<u8> {
    let search = Search::new(differs);
    let mut best = search.shorter(input);
    while let Some(less) = search.simpler_start(&best, starts).or_else(|| search.smaller_and_shorter(&best)).or_else(|| search.plainer(&best)) {
        best = search.shorter(&less);
    }
    best
}
