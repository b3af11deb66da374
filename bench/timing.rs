//! Versions of a call on the same inputs: their answers are compared, then they are timed by turns.
use crate::desks::{chosen, DESKS};
use crate::inputs::Ask;
use crate::triples::TRIPLE_WORDS;
use crate::walks::WALK_WORDS;

pub type Run<N> = fn(&Ask, &mut [u8], &mut [u8]) -> N;

/// What a version is, and how it gives its numbers.
#[derive(Clone, Copy)]
pub enum Version {
    /// A call with one number, or a visit with four, in a word.
    Word(Run<u32>),
    /// A call for desks, with eight numbers.
    Desks(Run<u64>),
    /// Single calls for desks: their numbers likewise, and an output for each desk.
    Singly(Run<u64>),
    /// A call with a number and, above it, a count or a yes.
    Counted(Run<u64>),
}

/// A call's number and, above it, the count or the yes that it leaves.
pub fn counted(number: u32, count: u32) -> u64 {
    u64::from(count) << 32 | u64::from(number)
}

/// The seconds that are spent on one input in all rounds, but for calls that take longer.
const BUDGET: f64 = 0.1;
const ROUNDS: usize = 21;
/// Longer calls have fewer rounds, and very long ones only that in which they are compared.
const FEWEST: usize = 3;
const LONG: f64 = 1.0;

#[repr(C)]
struct Timespec {
    seconds: i64,
    nanoseconds: i64,
}

extern "C" {
    fn clock_gettime(clock: i32, time: *mut Timespec) -> i32;
}

const THREAD_CPU_TIME: i32 = 3;

/// The processor's seconds that this thread has had: what others run at the same time does not count.
pub fn now() -> f64 {
    let mut time = Timespec { seconds: 0, nanoseconds: 0 };
    assert_eq!(unsafe { clock_gettime(THREAD_CPU_TIME, &mut time) }, 0);
    time.seconds as f64 + time.nanoseconds as f64 * 1e-9
}

/// The bytes of an output, at least: for a part, a path, a reply, a walk, a final list, triples.
pub const PART_BYTES: usize = 16_384;
pub const PATH_BYTES: usize = 256;
pub const REPLY_BYTES: usize = 16_384;
pub const WALK_BYTES: usize = 4 * WALK_WORDS;
const LIST_BYTES: usize = 32_768;
const TRIPLE_BYTES: usize = 4 * TRIPLE_WORDS;

pub struct Buffers {
    out: Vec<u8>,
    work: Vec<u8>,
}

impl Buffers {
    pub fn new() -> Buffers {
        Buffers { out: vec![0x55; DESKS * REPLY_BYTES], work: vec![0x55; 32_768] }
    }

    /// A version is handed a final list's output, one that leaves a count that of triples, and for several paths eight replies', of which it
    /// takes as many as it needs. What is behind that stays as it is.
    fn call(&mut self, version: Version, ask: &Ask) -> u64 {
        let length = match version {
            Version::Counted(_) => TRIPLE_BYTES,
            _ if ask.paths.is_empty() => LIST_BYTES,
            _ => DESKS * REPLY_BYTES,
        };
        let (out, work) = (&mut self.out[..length], &mut self.work[..]);
        match version {
            Version::Word(run) => u64::from(run(ask, out, work)),
            Version::Desks(run) | Version::Singly(run) | Version::Counted(run) => run(ask, out, work),
        }
    }

    /// The seconds of one call, and its number.
    pub fn once(&mut self, version: Version, ask: &Ask) -> (f64, u64) {
        let start = now();
        let number = self.call(version, ask);
        (now() - start, number)
    }

    /// The seconds of one call, on average over so many.
    fn repeated(&mut self, version: Version, ask: &Ask, count: usize) -> f64 {
        let start = now();
        for _ in 0..count {
            self.call(version, ask);
        }
        (now() - start) / count as f64
    }
}

/// Outputs of these lengths, one after another, of the one that a version is handed. What is behind them stays as it is.
pub fn outputs<const N: usize>(mut out: &mut [u8], lengths: [usize; N]) -> [&mut [u8]; N] {
    lengths.map(|length| {
        let (first, rest) = std::mem::take(&mut out).split_at_mut(length);
        out = rest;
        first
    })
}

/// The seconds of each version of a call in each round.
struct Rounds(Vec<Vec<f64>>);

pub struct Measured {
    /// The least seconds of each version.
    pub least: Vec<f64>,
    /// The first version's time over each one's, the median of the rounds: in one round all meet the same load.
    pub ratios: Vec<f64>,
}

impl Rounds {
    fn ratio(&self, version: usize) -> f64 {
        let mut ratios: Vec<f64> = self.0.iter().map(|round| round[0] / round[version]).collect();
        ratios.sort_by(f64::total_cmp);
        ratios[ratios.len() / 2]
    }

    fn measured(&self) -> Measured {
        let versions = self.0[0].len();
        let least = |v: usize| self.0.iter().map(|round| round[v]).fold(f64::MAX, f64::min);
        Measured { least: (0..versions).map(least).collect(), ratios: (0..versions).map(|v| self.ratio(v)).collect() }
    }
}

/// How many bytes of output a version must leave as the first does. The first two are the call itself, and owe all that there is; what stands
/// beside a visit owes an output for each path, as single calls know of no other, and what stands beside desks one output.
fn owed(place: usize, version: Version, ask: &Ask) -> usize {
    match version {
        Version::Singly(_) => REPLY_BYTES,
        Version::Word(_) if place >= 2 && !ask.paths.is_empty() => ask.paths.len() * REPLY_BYTES,
        _ => DESKS * REPLY_BYTES,
    }
}

/// All versions must leave the number that is due, the same bytes and the same state, which each is lent anew, and single calls for desks
/// what these are owed of their replies. Gives the seconds of each.
fn compare(versions: &[Version], ask: &Ask, name: &str) -> Vec<f64> {
    let (mut first, asked) = (Buffers::new(), ask.clone());
    let (time, number) = first.once(versions[0], &asked);
    assert_eq!(number, ask.number, "{name}");
    let mut times = vec![time];
    for (place, &version) in versions.iter().enumerate().skip(1) {
        let (mut other, again, owed) = (Buffers::new(), ask.clone(), owed(place, version, ask));
        let (time, mut number) = other.once(version, &again);
        if let Version::Singly(_) = version {
            number = chosen(ask.paths.len(), number, &mut other.out);
        }
        let same = other.out[..owed] == first.out[..owed] && other.work == first.work && again.state == asked.state;
        assert!(number == ask.number && same, "{name}: two versions differ");
        times.push(time);
    }
    times
}

/// The seconds of each version, one after another, or backward; quick ones are repeated to fill their share of a round.
fn round(versions: &[Version], ask: &Ask, about: &[f64], buffers: &mut Buffers, backward: bool) -> Vec<f64> {
    let share = BUDGET / (ROUNDS * versions.len()) as f64;
    let mut times = vec![0.0; versions.len()];
    for place in 0..versions.len() {
        let v = if backward { versions.len() - 1 - place } else { place };
        times[v] = buffers.repeated(versions[v], ask, ((share / about[v]) as usize).max(1));
    }
    times
}

/// How many rounds calls have of which one takes so many seconds in all versions.
fn rounds_of(seconds: f64) -> usize {
    if seconds > LONG {
        return 0;
    }
    ((BUDGET / seconds) as usize).clamp(FEWEST, ROUNDS)
}

/// Measures the versions on each input. The rounds go over all inputs, so that a slow moment does not fall on one of them alone, and every
/// other one backward: of two versions that share code the second is quicker, likely because the processor knows the branches by then.
pub fn measure(versions: &[Version], asks: &[Ask], name: &str) -> Vec<Measured> {
    let first: Vec<Vec<f64>> = asks.iter().map(|ask| compare(versions, ask, name)).collect();
    let mut rounds: Vec<Rounds> = asks.iter().map(|_| Rounds(Vec::new())).collect();
    let mut buffers = Buffers::new();
    for r in 0..ROUNDS {
        for (i, ask) in asks.iter().enumerate() {
            if r < rounds_of(first[i].iter().sum()) {
                rounds[i].0.push(round(versions, ask, &first[i], &mut buffers, r % 2 == 1));
            }
        }
    }
    for (rounds, first) in rounds.iter_mut().zip(first) {
        if rounds.0.is_empty() {
            rounds.0.push(first);
        }
    }
    rounds.iter().map(Rounds::measured).collect()
}
