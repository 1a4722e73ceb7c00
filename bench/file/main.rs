// Compares the proved reader and writer of controller files with plain Rust ones: equal answers first, also to broken texts, then time and
// memory a byte of the text. The arguments name a folder for the texts and the size of the largest one in megabytes.
#[path = "../common/fractions.rs"]
#[allow(dead_code)]
mod fractions;
mod plain;
mod texts;
#[path = "../common/timing.rs"]
#[allow(dead_code)]
mod timing;

use plain::{Controller, Failure};
use std::path::{Path, PathBuf};
use std::process::Command;
use timing::thread_time;

// ---- the proved library
unsafe extern "C" {
    fn mpc_file_read(bytes: *const u8, count: usize, line: *mut u64) -> u32;
    fn mpc_file_convert(bytes: *const u8, count: usize, out: *mut u8, room: usize, size: *mut u64, line: *mut u64) -> u32;
}

/// A code, which is 0 where the text is that of a controller, and the line that fails.
type Answer = (u32, u64);

fn proved_read(text: &[u8]) -> Answer {
    let mut line = 0;
    let code = unsafe { mpc_file_read(text.as_ptr(), text.len(), &mut line) };
    (code, line)
}

/// The text in version 3, at the front of `out`.
fn proved_convert<'a>(text: &[u8], out: &'a mut [u8]) -> &'a [u8] {
    let (mut size, mut line) = (0, 0);
    let code = unsafe { mpc_file_convert(text.as_ptr(), text.len(), out.as_mut_ptr(), out.len(), &mut size, &mut line) };
    assert_eq!(code, 0, "the code at line {line}");
    &out[..size as usize]
}

fn plain_read(text: &[u8]) -> Answer {
    match plain::read(text) {
        Ok(_) => (0, 0),
        Err(Failure { kind, line }) => (kind as u32, line),
    }
}

fn plain_convert(text: &[u8]) -> Vec<u8> {
    plain::write(&plain::read(text).expect("a controller"))
}

/// Room for a text in version 3.
fn room(text: &[u8]) -> Vec<u8> {
    vec![0; 2 * text.len() + 1000]
}

// ---- broken texts
/// Whether the two readers answer otherwise.
fn differs(text: &[u8]) -> bool {
    proved_read(text) != plain_read(text)
}

/// Texts that differ from this one at a place.
fn broken_at(text: &[u8], place: usize) -> Vec<Vec<u8>> {
    let (front, back) = text.split_at(place);
    let mut broken: Vec<Vec<u8>> = b"\n -/01+a".iter().map(|byte| [front, &[*byte], &back[1..]].concat()).collect();
    broken.extend(b" -/0".iter().map(|byte| [front, &[*byte], back].concat()));
    broken.extend([front.to_vec(), [front, &back[1..]].concat()]);
    broken
}

/// Texts that have a line of this one twice, not at all, or behind the next.
fn broken_lines(text: &[u8]) -> Vec<Vec<u8>> {
    let lines: Vec<&[u8]> = text.split_inclusive(|c| *c == b'\n').collect();
    let mut broken = Vec::new();
    for (k, line) in lines.iter().enumerate() {
        broken.push([&lines[..k], &[*line], &lines[k..]].concat().concat());
        broken.push([&lines[..k], &lines[k + 1..]].concat().concat());
        let mut swapped = lines.clone();
        swapped.swap(k, (k + 1).min(lines.len() - 1));
        broken.push(swapped.concat());
    }
    broken
}

/// The texts of a controller that may be written, the last one in version 3.
fn all_texts(controller: &Controller, offset: bool) -> [Vec<u8>; 2] {
    [texts::written(controller, if offset { 2 } else { 1 }), plain::write(controller)]
}

fn compare() -> bool {
    let small = [(texts::balanced(3, false), false), (texts::balanced(6, true), true), (texts::different(24, true), false), (texts::chain(2), false)];
    let (mut count, mut refused, mut different) = (0, 0, 0);
    for text in small.iter().flat_map(|(controller, offset)| all_texts(controller, *offset)) {
        assert_eq!(proved_read(&text), (0, 0), "a whole text");
        assert_eq!(proved_convert(&text, &mut room(&text)), plain_convert(&text), "its text in version 3");
        let places = (0..text.len()).flat_map(|place| broken_at(&text, place));
        for broken in places.chain(broken_lines(&text)) {
            count += 1;
            refused += usize::from(plain_read(&broken).0 != 0);
            if differs(&broken) {
                different += 1;
                println!("different: {:?} and {:?}", proved_read(&broken), plain_read(&broken));
            }
        }
    }
    println!("{count} broken texts compared, of which {refused} are refused: {different} different");
    different == 0
}

// ---- time and memory, each in a process of its own
/// The least seconds of some goes.
fn least(time: &mut f64, step: impl FnOnce()) {
    let start = thread_time();
    step();
    *time = time.min(thread_time() - start);
}

/// Prints the seconds of reading and of converting, each proved and plain.
fn print_times(text: &[u8]) {
    const GOES: usize = 3;
    let mut out = room(text);
    assert_eq!(proved_convert(text, &mut out), plain_convert(text), "the text in version 3");
    let mut times = [f64::MAX; 4];
    for _ in 0..GOES {
        least(&mut times[0], || assert_eq!(proved_read(text), (0, 0)));
        least(&mut times[1], || assert_eq!(plain_read(text), (0, 0)));
        least(&mut times[2], || _ = proved_convert(text, &mut out));
        least(&mut times[3], || _ = plain_convert(text));
    }
    println!("{} {} {} {}", times[0], times[1], times[2], times[3]);
}

/// A line of what the system says of this process, in bytes.
fn status(name: &str) -> f64 {
    let text = std::fs::read_to_string("/proc/self/status").expect("the status");
    let line = text.lines().find_map(|line| line.strip_prefix(name)).expect("its line");
    line.split_whitespace().next().expect("a number").parse::<f64>().expect("a number") * 1024.0
}

/// Prints by how much the peak of memory grows in a step; what the caller's own room takes doesn't count.
fn print_peak(step: &str, text: &[u8]) {
    let before = status("VmRSS:");
    let mut own = 0;
    match step {
        "proved read" => assert_eq!(proved_read(text), (0, 0)),
        "plain read" => assert_eq!(plain_read(text), (0, 0)),
        "proved convert" => own = proved_convert(text, &mut room(text)).len(),
        _ => drop(plain_convert(text)),
    }
    println!("{}", status("VmHWM:") - before - own as f64);
}

/// What this program prints for these words, in numbers.
fn answers(words: &[&str]) -> Vec<f64> {
    let program = std::env::current_exe().expect("this program");
    let output = Command::new(program).args(words).output().expect("a run");
    assert!(output.status.success(), "the run of {words:?}: {}", String::from_utf8_lossy(&output.stderr));
    let text = String::from_utf8(output.stdout).expect("numbers");
    text.split_whitespace().map(|word| word.parse().expect("a number")).collect()
}

const STEPS: [&str; 4] = ["proved read", "plain read", "proved convert", "plain convert"];

/// Prints a row for a text.
fn measure(folder: &Path, name: &str, text: &[u8]) {
    let path: PathBuf = folder.join("text");
    std::fs::write(&path, text).expect("the text");
    let file = path.to_str().expect("a name");
    let times = answers(&["times", file]);
    let peaks: Vec<f64> = STEPS.iter().map(|step| answers(&["peak", step, file])[0]).collect();
    std::fs::remove_file(&path).expect("the text");
    let bytes = text.len() as f64;
    let each = |seconds: f64| seconds * 1e9 / bytes;
    let pair = |proved: f64, plain: f64| format!("{proved:6.1} {plain:6.1} x {:.2}", proved / plain);
    println!(
        "{name:34} {:7.1} MB {:9} lines   read {}   write {}   ns a byte   peak: read {}   with writing {}   bytes a byte",
        bytes / 1e6,
        text.iter().filter(|c| **c == b'\n').count(),
        pair(each(times[0]), each(times[1])),
        pair(each(times[2] - times[0]), each(times[3] - times[1])),
        pair(peaks[0] / bytes, peaks[1] / bytes),
        pair(peaks[2] / bytes, peaks[3] / bytes),
    );
}

fn measure_both(folder: &Path, name: &str, controller: Controller) {
    let [written, named] = all_texts(&controller, false);
    drop(controller);
    measure(folder, &format!("{name}, version 1"), &written);
    measure(folder, &format!("{name}, version 3"), &named);
}

fn run(folder: &Path, megabytes: usize) {
    let leaf = texts::written(&texts::balanced(2000, false), 1).len() / 2000;
    let leaves = megabytes * 1_000_000 / leaf;
    for part in [8, 4, 2, 1] {
        let name = if part == 1 { "a whole tree".to_string() } else { format!("a tree of 1/{part}") };
        measure_both(folder, &name, texts::balanced(leaves / part, false));
    }
    measure_both(folder, "different forms", texts::different(3000 * megabytes, false));
    measure_both(folder, "different last numbers", texts::different(3000 * megabytes, true));
    measure_both(folder, "long certificates", texts::chain(3000 * megabytes));
}

fn main() {
    let words: Vec<String> = std::env::args().skip(1).collect();
    let words: Vec<&str> = words.iter().map(String::as_str).collect();
    match words[..] {
        ["times", file] => print_times(&std::fs::read(file).expect("the text")),
        ["peak", step, file] => print_peak(step, &std::fs::read(file).expect("the text")),
        [folder, megabytes] => {
            let agree = compare();
            run(Path::new(folder), megabytes.parse().expect("a size"));
            if !agree {
                std::process::exit(1);
            }
        }
        _ => panic!("a folder and a size are wanted"),
    }
}
