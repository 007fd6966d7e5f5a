//! Asks the library's exported functions with hostile input, every buffer right against a page that
//! nothing may touch, and compares with the oracle.
//!
//!     fuzz SECONDS [SEED]
//!
//! Each case has a seed of its own, from SEED up, so that `fuzz 0 SEED` is one case again. It ends
//! with an error if anything differs.

use std::ffi::c_int;
use std::process::ExitCode;
use std::sync::atomic::{AtomicU64, Ordering::Relaxed};
use std::time::{Duration, Instant};

use oracle::gen::Rng;
use oracle::{Answer, Asked};
use scale::arguments::two_numbers;
use scale::desk::{enough, Desk, Difference};
use scale::differences::Differences;
use scale::hostile;
use scale::interface::Exported;
use scale::lengths::{about, more};
use scale::lent::Place;

/// The memory far from what was lent is looked at once in so many cases.
const SELDOM: u64 = 1 << 16;

/// The seed of the case that runs.
static CASE: AtomicU64 = AtomicU64::new(0);

fn main() -> ExitCode {
    let Some((seconds, first)) = two_numbers() else {
        eprintln!("fuzz SECONDS [SEED]");
        return ExitCode::FAILURE;
    };
    name_the_case();
    let mut desk = Desk::new(Exported::default());
    let mut differences = Differences::default();
    let begin = Instant::now();
    for seed in first.. {
        CASE.store(seed, Relaxed);
        case(&mut desk, seed, &mut differences);
        let over = begin.elapsed() >= Duration::from_secs(seconds);
        if (over || seed % SELDOM == 0) && !desk.is_restored() {
            differences.add("all memory", seed, &[], "it changed far from what was lent");
            break;
        }
        if over {
            break;
        }
    }
    println!("{}", desk.tally);
    println!("refusals not met: {}", desk.tally.missed().join(", "));
    let (calls, last) = (desk.tally.calls(), CASE.load(Relaxed));
    let seconds = begin.elapsed().as_secs_f64();
    let speed = calls as f64 / seconds;
    println!("seeds {first} to {last}: {calls} calls in {seconds:.0} s, {speed:.0} a second");
    println!("{} differences", differences.count());
    match differences.count() {
        0 => ExitCode::SUCCESS,
        _ => ExitCode::FAILURE,
    }
}

fn case(desk: &mut Desk<Exported>, seed: u64, differences: &mut Differences) {
    use Place::{Back, Front, Middle};
    let mut rng = Rng::new(seed);
    desk.places = [(); 3].map(|()| rng.pick(&[Front, Front, Back, Back, Middle]));
    let (kind, input, compared) = if rng.percent(60) {
        let source = hostile::source(&mut rng);
        let compared = assemble(desk, &source, &mut rng);
        ("source", source, compared)
    } else {
        let image = hostile::image(&mut rng);
        let compared = desk.look_into(&image, |length| any_length(&mut rng, length));
        ("image", image, compared)
    };
    if let Err(difference) = compared {
        differences.add(kind, seed, &input, &difference);
    }
}

fn assemble(desk: &mut Desk<Exported>, source: &[u8], rng: &mut Rng) -> Result<(), Difference> {
    let asked = Asked::new(source);
    let (labels, length) = enough(&asked);
    match desk.assemble(&asked, any_length(rng, labels), any_length(rng, length))? {
        Answer::Accepted { image, .. } => desk.look_into(&image, |length| any_length(rng, length)),
        Answer::Refused { .. } => Ok(()),
    }
}

/// Mostly enough, and otherwise anything from 0 to more than enough.
fn any_length(rng: &mut Rng, enough: usize) -> usize {
    match rng.percent(70) {
        true => enough + more(rng),
        false => about(rng, enough),
    }
}

extern "C" {
    fn signal(number: c_int, handler: extern "C" fn(c_int)) -> usize;
}

const SIGBUS: c_int = 7;
const SIGSEGV: c_int = 11;

/// A touched page or a failed check names the case before the program ends.
fn name_the_case() {
    let usual = std::panic::take_hook();
    std::panic::set_hook(Box::new(move |panic| {
        usual(panic);
        eprintln!("seed {}", CASE.load(Relaxed));
    }));
    // SAFETY: the handler has the right type, and ends the program.
    unsafe {
        signal(SIGSEGV, touched);
        signal(SIGBUS, touched);
    }
}

/// The library holds no lock when it is stopped, so printing is possible.
extern "C" fn touched(_: c_int) {
    eprintln!(
        "seed {}: memory that was not lent is touched",
        CASE.load(Relaxed)
    );
    std::process::abort();
}
