//! Looks at `float::root` as it stands in the proved static library: no instruction of it divides or
//! takes a root, it has the machine's answer for every f32, and its time beside the machine's.

mod code;

use std::hint::black_box;
use std::process::{Command, ExitCode};
use std::thread;
use std::time::Instant;

type Root = fn(f32) -> f32;

#[cfg(identify_lib)]
fn library_root(value: f32) -> f32 {
    unsafe extern "C" {
        fn identify_float_root(value: f32) -> f32;
    }
    // SAFETY: the function takes any f32 and touches no memory.
    unsafe { identify_float_root(value) }
}

#[cfg(identify_lib)]
const LIBRARY: Option<(&str, Root)> = Some((env!("ROOT_LIBRARY"), library_root));
#[cfg(not(identify_lib))]
const LIBRARY: Option<(&str, Root)> = None;

fn machine_root(value: f32) -> f32 {
    value.sqrt()
}

fn disassembly(archive: &str) -> Result<String, String> {
    let output = Command::new("objdump")
        .args(["-d", "-r", "--no-show-raw-insn", archive])
        .output()
        .map_err(|error| format!("objdump, of binutils: {error}"))?;
    if !output.status.success() {
        return Err(String::from_utf8_lossy(&output.stderr).into_owned());
    }
    String::from_utf8(output.stdout).map_err(|error| error.to_string())
}

/// The first pattern from `from` on, below `to`, whose root is not the machine's. Any NaN is NaN.
fn first_other(root: Root, from: u64, to: u64) -> Option<u32> {
    (from..to).map(|bits| bits as u32).find(|&bits| {
        let value = f32::from_bits(bits);
        let (ours, machine) = (root(value), machine_root(value));
        ours.to_bits() != machine.to_bits() && !(ours.is_nan() && machine.is_nan())
    })
}

/// The same of all 2^32 patterns, on all cores.
fn first_other_of_all(root: Root) -> Option<u32> {
    const PARTS: u64 = 256;
    const SIZE: u64 = (1 << 32) / PARTS;
    let cores = thread::available_parallelism().map_or(1, |cores| cores.get() as u64);
    thread::scope(|scope| {
        let workers: Vec<_> = (0..cores)
            .map(|core| {
                scope.spawn(move || {
                    (core..PARTS)
                        .step_by(cores as usize)
                        .find_map(|part| first_other(root, part * SIZE, (part + 1) * SIZE))
                })
            })
            .collect();
        workers
            .into_iter()
            .filter_map(|worker| worker.join().expect("a worker does not panic"))
            .min()
    })
}

/// Positive finite values of every exponent, in no order.
fn values(count: u32) -> Vec<f32> {
    (0..count)
        .map(|number| u64::from(number.wrapping_mul(0x9e37_79b9)))
        .map(|scattered| f32::from_bits(1 + ((scattered * 0x7f7f_ffff) >> 32) as u32))
        .collect()
}

/// ns a root: of values that do not wait for each other, and of values each of which waits for the
/// root before it.
fn times(root: Root, values: &[f32]) -> [f64; 2] {
    let root = black_box(root);
    let per = 1e9 / values.len() as f64;
    let start = Instant::now();
    for &value in values {
        black_box(root(value));
    }
    let apart = start.elapsed().as_secs_f64() * per;
    let start = Instant::now();
    let mut last = 0.0f32;
    for &value in values {
        last = root(value + last * 0.0);
    }
    black_box(last);
    [apart, start.elapsed().as_secs_f64() * per]
}

/// Prints the least times of 51 repetitions, the library's and the machine's in turn.
fn print_times(root: Root) {
    let values = values(1_000_000);
    let mut least = [[f64::INFINITY; 2]; 2];
    for _ in 0..51 {
        for (least, root) in least.iter_mut().zip([root, machine_root]) {
            let times = times(root, &values);
            *least = [least[0].min(times[0]), least[1].min(times[1])];
        }
    }
    let [library, machine] = least;
    for (what, ours, theirs) in [
        ("apart", library[0], machine[0]),
        ("in a chain", library[1], machine[1]),
    ] {
        println!("a root, {what:<10} library {ours:>6.2} ns, machine {theirs:>5.2} ns");
    }
}

fn looked_at(archive: &str, root: Root) -> Result<(), String> {
    let code = code::without_division(&disassembly(archive)?, "float::root")?;
    println!(
        "float::root: {} instructions in {} function(s), no division and no square root among them",
        code.instructions, code.functions
    );
    print_times(root);
    match first_other_of_all(root) {
        Some(bits) => Err(format!("the root of {bits:08X} is not the machine's")),
        None => {
            println!("all 2^32 patterns: none has another root than the machine's");
            Ok(())
        }
    }
}

fn main() -> ExitCode {
    let Some((archive, root)) = LIBRARY else {
        eprintln!("root: set IDENTIFY_LIB to the static library and build again (host/README.md)");
        return ExitCode::from(2);
    };
    match looked_at(archive, root) {
        Ok(()) => ExitCode::SUCCESS,
        Err(why) => {
            eprintln!("root: {why}");
            ExitCode::FAILURE
        }
    }
}
