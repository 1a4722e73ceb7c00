// Times the phases from a plant file to a reply: each phase by the least time of the runs that end behind it, less that of the runs that
// end before it. The arguments name files with a plant, the line `states` and a line of counts.
#[path = "../common/timing.rs"]
#[allow(dead_code)]
mod timing;

use std::ffi::c_void;
use timing::thread_time;

// ---- the proved library
#[repr(C)]
#[derive(Clone, Copy, Default)]
struct Parts {
    negative: bool,
    num_high: u64,
    num_low: u64,
    den_high: u64,
    den_low: u64,
}

#[repr(C)]
#[derive(Clone, Copy, Default)]
struct Sizes {
    candidates: u64,
    laws: u64,
    nodes: u64,
}

unsafe extern "C" {
    fn mpc_compile_reply(
        file: *const c_void,
        file_len: usize,
        counts: *const u64,
        count_len: usize,
        last: u32,
        rounds: u32,
        sizes: *mut Sizes,
        moves: *mut Parts,
        move_len: usize,
    ) -> u32;
}

const PHASES: [&str; 5] = ["read", "decide", "controller", "table", "reply"];
const REPLY: u32 = 5;
const MOVED: u32 = 0;
const INFEASIBLE: u32 = 1;
const ASKED: u32 = 3;
const OTHER_SIZES: u32 = 8;

/// What a run answers: its code, the sizes of the controller and the move.
struct Answer {
    code: u32,
    sizes: Sizes,
    moves: Vec<Parts>,
}

/// A plant file, one state by its counts, and the plant's number of inputs.
struct Request {
    file: Vec<u8>,
    counts: Vec<u64>,
    inputs: usize,
}

impl Request {
    fn read(path: &str) -> Self {
        let text = std::fs::read_to_string(path).expect("the file of a plant");
        let (file, states) = text.split_once("\nstates\n").expect("the line `states`");
        let line = states.lines().next().expect("a line of counts");
        let counts = line.split(' ').map(|count| count.parse().expect("a count")).collect();
        let mut request = Request { file: file.as_bytes().to_vec(), counts, inputs: 1 };
        while request.run(1, 1).code == OTHER_SIZES && request.inputs < 3 {
            request.inputs += 1;
        }
        request
    }

    /// The run up to the phase with this number, from 1, with so many replies.
    fn run(&self, last: u32, rounds: u32) -> Answer {
        let mut sizes = Sizes::default();
        let mut moves = vec![Parts::default(); self.inputs];
        let (file, counts) = (&self.file, &self.counts);
        let code = unsafe {
            mpc_compile_reply(
                file.as_ptr().cast(),
                file.len(),
                counts.as_ptr(),
                counts.len(),
                last,
                rounds,
                &mut sizes,
                moves.as_mut_ptr(),
                moves.len(),
            )
        };
        Answer { code, sizes, moves }
    }
}

// ---- text
fn half(high: u64, low: u64) -> u128 {
    (high as u128) << 64 | low as u128
}

fn fraction(parts: &Parts) -> String {
    let sign = if parts.negative { "-" } else { "" };
    let (num, den) = (half(parts.num_high, parts.num_low), half(parts.den_high, parts.den_low));
    if den == 1 { format!("{sign}{num}") } else { format!("{sign}{num}/{den}") }
}

fn reply(answer: &Answer) -> String {
    match answer.code {
        MOVED => answer.moves.iter().map(fraction).collect::<Vec<_>>().join(" "),
        INFEASIBLE => "infeasible".to_string(),
        code => format!("code {code}"),
    }
}

// ---- time
/// The milliseconds that this thread has run.
fn milliseconds() -> f64 {
    thread_time() * 1e3
}

/// The replies in a row that are timed, since one alone is too short.
const REPLIES: u32 = 1_000_000;
/// How often the runs are timed one after the other, and the milliseconds that each takes at least at each time.
const GOES: usize = 9;
const SPENT: f64 = 10.0;

/// The least milliseconds of some runs up to a phase with so many replies.
fn least_time(request: &Request, last: u32, rounds: u32) -> f64 {
    let (mut least, mut spent) = (f64::MAX, 0.0);
    while spent < SPENT {
        let start = milliseconds();
        let answer = request.run(last, rounds);
        let time = milliseconds() - start;
        assert_eq!(answer.code == ASKED, last < REPLY, "the code {} behind phase {last}", answer.code);
        (least, spent) = (least.min(time), spent + time);
    }
    least
}

/// The least milliseconds of the runs up to each phase; behind the last one, those with more replies.
fn least_times(request: &Request) -> [f64; 6] {
    let mut least = [f64::MAX; 6];
    for _ in 0..GOES {
        for (place, least) in least.iter_mut().enumerate() {
            let rounds = if place == 5 { REPLIES + 1 } else { 1 };
            *least = least.min(least_time(request, REPLY.min(place as u32 + 1), rounds));
        }
    }
    least
}

/// The milliseconds of each phase, from the times of the runs up to them.
fn phase_times(least: &[f64; 6]) -> [f64; 5] {
    std::array::from_fn(|phase| match phase {
        0 => least[0],
        4 => (least[5] - least[4]) / REPLIES as f64,
        _ => (least[phase] - least[phase - 1]).max(0.0),
    })
}

fn name_of(path: &str) -> &str {
    let file = path.rsplit('/').next().unwrap_or(path);
    file.strip_suffix(".txt").unwrap_or(file)
}

fn print_line(path: &str) {
    let request = Request::read(path);
    let answer = request.run(REPLY, 1);
    let least = least_times(&request);
    let Sizes { candidates, laws, nodes } = answer.sizes;
    print!("{:18} {candidates:7} {laws:5} {nodes:6}", name_of(path));
    for time in &phase_times(&least)[..4] {
        print!(" {time:10.3}");
    }
    println!(" {:10.5} {:10.3}   {}", phase_times(&least)[4], least[4], reply(&answer));
}

fn main() {
    println!("milliseconds of each phase, and of all");
    print!("{:18} {:>7} {:>5} {:>6}", "plant", "sets", "laws", "nodes");
    for phase in PHASES {
        print!(" {phase:>10}");
    }
    println!(" {:>10}   reply", "all");
    std::env::args().skip(1).for_each(|path| print_line(&path));
}
