//! Runs one function many times, for tools/bench. `bench hash WHOSE LENGTH TIMES`: a keyed hash on a message of
//! LENGTH bytes. `bench verify WHOSE CAVEATS TIMES`: verify on a token that is allowed, with so many caveats, or
//! with as many bytes as a token may have if CAVEATS is "longest". `bench clear room LENGTH TIMES`: a room of
//! LENGTH bytes is cleared. `bench time WHAT SIZE`: the nanoseconds of a call of each of the three programs.
//! The instructions of two runs that differ in TIMES are those of the calls alone.

use std::hint::black_box;
use std::time::Instant;

use checks::cases::Triple;
use checks::samples;
use second::verify::verify_with;

type Hash = fn(&[u8; 32], &[u8]) -> [u8; 32];
type Verify = fn(&[u8], &[u8], &[u8]) -> u32;
/// So many calls, and how long they took, in nanoseconds.
type Run = Box<dyn FnMut(usize) -> u128>;

const WHOSE: [&str; 3] = ["proved", "plain", "official"];
/// A run of this many nanoseconds is short enough to fall between two interruptions, and long enough for the clock.
const SHORT: u128 = 20_000;
const TURNS: usize = 2_000;

fn proved(key: &[u8; 32], message: &[u8]) -> [u8; 32] {
    archive::keyed_hash(key, message).bytes
}

fn official(key: &[u8; 32], message: &[u8]) -> [u8; 32] {
    *blake3::keyed_hash(key, message).as_bytes()
}

fn hash_of(whose: &str) -> Hash {
    match whose {
        "proved" => proved,
        "plain" => plain::keyed_hash,
        "official" => official,
        other => panic!("no hash is called {other}"),
    }
}

/// The second program under a plain hash or the official one, beside the proved verify.
fn verify_of(whose: &str) -> Verify {
    match whose {
        "proved" => archive::verify,
        "plain" => |table, request, token| verify_with(plain::keyed_hash, table, request, token),
        "official" => |table, request, token| verify_with(official, table, request, token),
        other => panic!("no verify is called {other}"),
    }
}

fn run_of(mut call: impl FnMut() + 'static) -> Run {
    Box::new(move |times| {
        let start = Instant::now();
        for _ in 0..times {
            call();
        }
        start.elapsed().as_nanos()
    })
}

fn hashes(whose: &str, length: &str) -> Run {
    let hash = hash_of(whose);
    let length: usize = length.parse().expect("LENGTH is a number");
    let key = *b"whats the Elvish word for friend";
    let message: Vec<u8> = (0..length).map(|i| (i % 251) as u8).collect();
    run_of(move || {
        black_box(hash(black_box(&key), black_box(&message)));
    })
}

fn verdicts(whose: &str, caveats: &str) -> Run {
    let verify = verify_of(whose);
    let case = match caveats {
        "longest" => samples::longest(),
        count => samples::of_caveats(count.parse().expect("CAVEATS is a number")),
    };
    let Triple { table, request, text } = case.laid();
    assert_eq!(verify(&table, &request, &text), 0, "the sample is allowed");
    run_of(move || {
        black_box(verify(black_box(&table), black_box(&request), black_box(&text)));
    })
}

/// What the archive calls to clear its work room: C's `memset`.
fn clearings(length: &str) -> Run {
    let mut room = vec![1u8; length.parse().expect("LENGTH is a number")];
    run_of(move || black_box(&mut room).fill(0))
}

fn of(what: &str, whose: &str, size: &str) -> Run {
    match what {
        "hash" => hashes(whose, size),
        "verify" => verdicts(whose, size),
        "clear" => clearings(size),
        other => panic!("nothing is called {other}"),
    }
}

/// The least of many short runs, the programs in turn: what else the machine does can only lengthen a run.
fn least(mut runs: Vec<Run>) -> Vec<f64> {
    let times: Vec<usize> = runs.iter_mut().map(|run| (SHORT * 10 / run(10).max(1)) as usize + 1).collect();
    let mut least = vec![f64::INFINITY; runs.len()];
    for _ in 0..TURNS {
        for (i, run) in runs.iter_mut().enumerate() {
            least[i] = least[i].min(run(times[i]) as f64 / times[i] as f64);
        }
    }
    least
}

fn main() {
    let args: Vec<String> = std::env::args().collect();
    let args: Vec<&str> = args.iter().skip(1).map(String::as_str).collect();
    match args.as_slice() {
        ["time", what, size] => {
            let runs = WHOSE.iter().map(|whose| of(what, whose, size)).collect();
            println!("{}", least(runs).iter().map(|t| format!("{t:.1}")).collect::<Vec<_>>().join(" "));
        }
        [what, whose, size, times] => {
            println!("{}", of(what, whose, size)(times.parse().expect("TIMES is a number")));
        }
        _ => panic!("usage: bench hash|verify|clear proved|plain|official SIZE TIMES, or bench time hash|verify|clear SIZE"),
    }
}
