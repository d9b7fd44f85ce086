//! The files are read back by their layouts and held against plain arithmetic and against the
//! second program.

use reference::access::DelaySums;

use crate::{file::File, fits, runs, scalars, steady_runs, sweep, two_axis_runs, units, window};

/// Reads words off a file.
struct Reader<'a> {
    left: &'a [u8],
}

impl<'a> Reader<'a> {
    fn of(file: &'a File) -> Reader<'a> {
        Reader {
            left: file.contents(),
        }
    }

    fn bytes(&mut self, len: usize) -> &'a [u8] {
        let (taken, left) = self.left.split_at(len);
        self.left = left;
        taken
    }

    fn word(&mut self) -> u32 {
        u32::from_be_bytes(self.bytes(4).try_into().expect("four bytes"))
    }

    fn float(&mut self) -> f32 {
        f32::from_bits(self.word())
    }

    fn at_end(&self) -> bool {
        self.left.is_empty()
    }
}

#[test]
fn scalar_files_are_the_hardwares_answers() {
    let file = scalars::root(7);
    assert!(file.records() >= 4_000);
    let mut reader = Reader::of(&file);
    while !reader.at_end() {
        let (value, root) = (reader.float(), reader.word());
        assert_eq!(root, float::bits(std::hint::black_box(value).sqrt()));
    }
    let file = scalars::narrow(7);
    assert!(file.records() >= 4_000);
    let mut reader = Reader::of(&file);
    while !reader.at_end() {
        let wide = u64::from(reader.word()) << 32 | u64::from(reader.word());
        assert_eq!(reader.word(), float::bits(f64::from_bits(wide) as f32));
    }
    let file = scalars::exp(7);
    assert!(file.records() >= 4_000);
    let mut reader = Reader::of(&file);
    while !reader.at_end() {
        let (x, power) = (reader.float(), reader.float());
        assert!(x <= 0.0 && (0.0..=1.0).contains(&power));
    }
}

#[test]
fn logarithms_are_within_one_unit_of_the_true_ones() {
    let file = scalars::log(7);
    assert!((4_500..4_700).contains(&file.records()));
    let mut reader = Reader::of(&file);
    let [mut nothing, mut positive] = [0; 2];
    while !reader.at_end() {
        let (value, logarithm) = (reader.float(), reader.word());
        let expected = float::bits((f64::from(value)).ln() as f32);
        if value > 0.0 && value < f32::INFINITY {
            positive += 1;
            assert!(logarithm.abs_diff(expected) <= 1, "log of {value}");
        } else {
            nothing += 1;
            assert_eq!(logarithm, expected, "log of {value}");
        }
    }
    assert!(nothing > 1_000 && positive > 3_000);
}

#[test]
fn the_second_program_replays_the_units() {
    let file = units::units(7);
    assert_eq!(file.records(), 4_000);
    let mut reader = Reader::of(&file);
    let [mut not_done, mut neither, mut zero, mut positive, mut odd] = [0; 5];
    while !reader.at_end() {
        let (report, answer) = (reader.bytes(36), reader.bytes(12));
        let mut ours = [0xa5; 12];
        assert_eq!(second::plain_units(report, &mut ours), 0);
        assert_eq!(ours, answer);
        let mut words = Reader { left: answer };
        let (both, lag_s) = (words.word(), words.float());
        match (report[0] >> 6, both) {
            (1, 0) => neither += 1,
            (1, _) if lag_s == 0.0 => zero += 1,
            (1, _) if lag_s > 0.0 => positive += 1,
            (1, _) => odd += 1,
            _ => not_done += 1,
        }
    }
    assert!(not_done > 500 && neither > 300 && zero > 300 && positive > 800 && odd > 100);
}

#[test]
fn a_file_holds_nan_inputs_and_one_nan_answer() {
    let file = scalars::min(7);
    let mut reader = Reader::of(&file);
    let (mut one, mut two) = (0, 0);
    while !reader.at_end() {
        let (a, b, smaller) = (reader.float(), reader.float(), reader.word());
        one += u32::from(a.is_nan() != b.is_nan());
        if a.is_nan() && b.is_nan() {
            two += 1;
            assert_eq!(smaller, 0x7fc0_0000);
        }
    }
    assert!(one > 10 && two > 3);
}

#[test]
fn a_sweep_tick_passes_hundreds_of_edges() {
    let file = sweep::sweep(7);
    let mut reader = Reader::of(&file);
    let mut most = 0;
    while !reader.at_end() {
        let words: Vec<u32> = (0..13).map(|_| reader.word()).collect();
        most = most.max(words[8] - words[2]);
    }
    assert!(most >= 300, "{most} edges");
}

#[test]
fn patterns_hold_the_marked_counts() {
    let file = window::patterns();
    assert_eq!(file.records(), (1 << 15) - 1);
    let mut reader = Reader::of(&file);
    while !reader.at_end() {
        let record = reader.bytes(6);
        let [_, _, length, held, warm, rows] = record.try_into().expect("six bytes");
        assert_eq!(length, held + warm + rows);
        if record[..3] == [0, 0, 12] {
            assert_eq!((held, warm, rows), (0, 11, 1));
        }
    }
}

#[test]
fn sums_are_those_over_the_rows_in_tick_order() {
    let file = fits::sums(7);
    let mut reader = Reader::of(&file);
    while !reader.at_end() {
        let stored = reader.word() as usize;
        let samples: Vec<(f32, f32, u32)> = (0..stored)
            .map(|_| (reader.float(), reader.float(), reader.word()))
            .collect();
        let rows: Vec<usize> = (11..stored)
            .filter(|k| samples[k - 11..=*k].iter().all(|sample| sample.2 == 0))
            .collect();
        assert_eq!(reader.word() as usize, rows.len());
        for d in 1..=10 {
            let mut sums = [0.0f32; 43];
            for &k in &rows {
                let rate = |at: usize| samples[at].0;
                let moment = |at: usize| samples[at].1;
                let target = rate(k) - rate(k - 1);
                let terms = [
                    rate(k - 1),
                    rate(k - 1) - rate(k - 2),
                    moment(k + 1 - d),
                    moment(k - d),
                    moment(k - 1 - d),
                    1.0,
                ];
                for place in 0..36 {
                    sums[place] += terms[place % 6] * terms[place / 6];
                }
                for place in 0..6 {
                    sums[36 + place] += terms[place] * target;
                }
                sums[42] += target * target;
            }
            for sum in sums {
                assert_eq!(reader.word(), float::bits(sum));
            }
        }
    }
}

#[test]
fn differences_that_overflow_are_solved_too() {
    let file = fits::solve(7);
    let mut reader = Reader::of(&file);
    let [mut nan, mut infinite, mut minus_infinite] = [0; 3];
    while !reader.at_end() {
        let sums = DelaySums {
            normal: std::array::from_fn(|_| reader.float()),
            projected: std::array::from_fn(|_| reader.float()),
            target_squared: reader.float(),
        };
        let fit = reader.word();
        reader.bytes(24);
        let residual = reader.word();
        let Some((solution, difference)) = sums.difference() else {
            continue;
        };
        if solution.iter().any(|value| !value.is_finite()) {
            continue;
        }
        match difference {
            f32::INFINITY => {
                infinite += 1;
                assert_eq!(fit, 0);
            }
            f32::NEG_INFINITY => {
                minus_infinite += 1;
                assert_eq!((fit, residual), (1, 0));
            }
            _ if difference.is_nan() => {
                nan += 1;
                assert_eq!(fit, 0);
            }
            _ => assert_eq!(fit, 1),
        }
    }
    let counts = [nan, infinite, minus_infinite];
    assert!(counts.iter().all(|count| *count >= 20), "{counts:?}");
}

/// The gain of a fit in f64 and the difference before max, straight from 01; none where the
/// moment does not vary.
fn gain_and_difference(
    carry: f64,
    step: usize,
    rates: &[f32],
    lagged: &[f32],
) -> Option<(f64, f64)> {
    let d = step / 2 + 1;
    let [a, b] = if step % 2 == 1 {
        [0.5, 0.5]
    } else {
        [1.0, 0.0]
    };
    let [mut m, mut c, mut t] = [0.0f64; 3];
    let [mut mm, mut mc, mut cc, mut mt, mut ct, mut tt] = [0.0f64; 6];
    for k in 11..rates.len() {
        let [now, next] = [lagged[k + 1 - d], lagged[k - d]].map(f64::from);
        m = carry * m + (a * now + b * next);
        c = carry * c + 1.0;
        t = carry * t + f64::from(rates[k] - rates[k - 1]);
        (mm, mc, cc) = (mm + m * m, mc + m * c, cc + c * c);
        (mt, ct, tt) = (mt + m * t, ct + c * t, tt + t * t);
    }
    let det = mm * cc - mc * mc;
    let gain = (mt * cc - mc * ct) / det;
    let trim = (mm * ct - mc * mt) / det;
    (det > f64::EPSILON * mm * cc).then_some((gain, tt - gain * mt - trim * ct))
}

#[test]
fn gains_that_are_not_finite_are_no_fits() {
    let file = fits::gain(7);
    let mut reader = Reader::of(&file);
    let [mut infinite, mut nan] = [0; 2];
    while !reader.at_end() {
        let (stored, step) = (reader.word(), reader.word() as usize);
        let carry = u64::from(reader.word()) << 32 | u64::from(reader.word());
        let (rates, lagged): (Vec<f32>, Vec<f32>) = (0..stored)
            .map(|_| (reader.float(), reader.float()))
            .unzip();
        let (fit, gain) = (reader.word(), reader.word());
        reader.word();
        match gain_and_difference(f64::from_bits(carry), step, &rates, &lagged) {
            None => assert_eq!(fit, 0),
            Some((_, difference)) if difference.is_nan() => {
                nan += 1;
                assert_eq!(fit, 0);
            }
            Some((wide, _)) if (wide as f32).is_infinite() => {
                infinite += 1;
                assert_eq!(fit, 0);
            }
            Some((wide, _)) => assert_eq!((fit, gain), (1, (wide as f32).to_bits())),
        }
    }
    assert!(infinite >= 20 && nan >= 20, "{infinite} and {nan}");
}

#[test]
fn integrated_fits_end_in_every_way() {
    let file = fits::integrated(7);
    let mut reader = Reader::of(&file);
    let [mut few, mut none, mut early, mut whole, mut half] = [0; 5];
    while !reader.at_end() {
        let stored = reader.word() as usize;
        reader.bytes(4 + 8 * stored);
        let (fit, step) = (reader.word(), reader.word());
        reader.bytes(28);
        match (fit, reader.word()) {
            (0, 0) => few += u32::from(stored <= 12),
            (0, 2_580) => none += 1,
            (1, 2_604) if step % 2 == 1 => half += 1,
            (1, 2_604) => whole += 1,
            (1, fits) => early += u32::from((2_582..2_604).contains(&fits)),
            other => panic!("{other:?}"),
        }
    }
    assert!(few >= 5 && none >= 10 && early >= 5 && whole >= 40 && half >= 40);
}

#[test]
fn the_second_program_replays_the_runs() {
    let (file, index) = runs::runs(7);
    assert_eq!(index.lines().count(), file.records() + 1);
    assert!(file.records() >= 300, "{} runs", file.records());
    let integrated = index
        .lines()
        .filter(|line| line.contains("integrated"))
        .count();
    assert!(integrated >= 40, "{integrated} through the integrated fit");
    replay(&file, second::byte_run);
}

/// A program gives the answers of a file of whole byte runs.
fn replay(file: &File, byte_run: fn(&[u8], &[u8], &mut [u8]) -> u32) {
    let mut reader = Reader::of(file);
    while !reader.at_end() {
        let lengths = [reader.word(), reader.word(), reader.word()].map(|length| length as usize);
        let (config, calls) = (reader.bytes(lengths[0]), reader.bytes(lengths[1]));
        let (result, output) = (reader.word(), reader.bytes(lengths[2]));
        let mut ours: Vec<u8> = (0..lengths[2])
            .map(|place| (place * 31 + 0xa5) as u8)
            .collect();
        assert_eq!(byte_run(config, calls, &mut ours), result);
        assert_eq!(ours, output);
    }
}

#[test]
fn the_second_program_replays_the_runs_of_two_axes() {
    let (file, index) = two_axis_runs::two_axis_runs(1);
    assert_eq!(index.lines().count(), file.records() + 1);
    assert!(
        (60..=100).contains(&file.records()),
        "{} runs",
        file.records()
    );
    assert!(file.contents().len() < 400_000);
    for way in ["none", "first", "second", "both"] {
        for way in [format!("\t{way}\t"), format!("\t{way}, already reached\t")] {
            let kept = index.lines().filter(|line| line.contains(&way)).count();
            assert!(kept >= 3 || way.starts_with("\tnone,"), "{kept} of {way}");
        }
    }
    replay(&file, second::two_axis_run);
}

/// Sizes of the runs of one axis or of two, and the second program's run.
struct Sizes {
    call: usize,
    report: usize,
    words: usize,
    run: fn(&[u8], &[u8], &mut [u8]) -> u32,
}

/// A steady run against the second program's plain one: which calls 10 turned back, by the band of the
/// first accepted dt in f64; and all answers, without these calls.
fn check_steady_run(sizes: &Sizes, config: &[u8], calls: &[u8], output: &[u8]) -> usize {
    let plain = |calls: &[u8]| {
        let mut output = vec![0; sizes.report + sizes.words * (calls.len() / sizes.call)];
        assert_eq!((sizes.run)(config, calls, &mut output), 0);
        output
    };
    let ten = 0x7fc0_000au32.to_be_bytes();
    let (report, words) = output.split_at(sizes.report);
    let (mut kept, mut answers) = (Vec::new(), report.to_vec());
    let (mut first, mut turned_back) = (None::<f64>, 0);
    let words = words.chunks_exact(sizes.words);
    for (call, word) in calls.chunks_exact(sizes.call).zip(words) {
        let dt = f32::from_bits(u32::from_be_bytes(
            call[..4].try_into().expect("four bytes"),
        ));
        let runs = plain(&kept)[0] >> 6 == 0;
        let uneven = first.is_some_and(|first| {
            let [low, high] = [0.75, 1.25].map(|end: f64| (end * first) as f32);
            !(low..=high).contains(&dt)
        });
        let expected = runs && dt > 0.0 && dt < f32::INFINITY && uneven;
        assert_eq!(word[..4] == ten, expected, "dt {dt} after {first:?}");
        if expected {
            turned_back += 1;
            assert!(word.chunks_exact(4).all(|word| word == ten));
            continue;
        }
        kept.extend_from_slice(call);
        answers.extend_from_slice(word);
        if runs && word[..3] != ten[..3] {
            first.get_or_insert(f64::from(dt));
        }
    }
    assert_eq!(plain(&kept), answers);
    turned_back
}

#[test]
fn a_steady_run_is_the_second_programs_without_the_calls_that_10_turned_back() {
    let one = Sizes {
        call: 12,
        report: 36,
        words: 4,
        run: second::byte_run,
    };
    let two = Sizes {
        call: 20,
        report: 77,
        words: 8,
        run: second::two_axis_run,
    };
    for (sizes, (file, index)) in [
        (one, steady_runs::steady_runs(1)),
        (two, steady_runs::steady_two_axis_runs(1)),
    ] {
        assert_eq!(index.lines().count(), file.records() + 1);
        assert!(file.records() >= 200, "{} runs", file.records());
        let (mut ran, mut turned_back) = (0, 0);
        let mut reader = Reader::of(&file);
        while !reader.at_end() {
            let lengths = [reader.word(), reader.word(), reader.word()].map(|n| n as usize);
            let (config, calls) = (reader.bytes(lengths[0]), reader.bytes(lengths[1]));
            let (result, output) = (reader.word(), reader.bytes(lengths[2]));
            if result != 0 {
                continue;
            }
            let written = sizes.report + sizes.words * (lengths[1] / sizes.call);
            turned_back += check_steady_run(&sizes, config, calls, &output[..written]);
            ran += 1;
        }
        assert!(
            ran >= 200 && turned_back >= 400,
            "{ran} ran, {turned_back} turned back"
        );
    }
}

#[test]
fn a_seed_gives_the_same_file() {
    assert_eq!(fits::gain(7).contents(), fits::gain(7).contents());
    assert_eq!(scalars::exp(7).contents(), scalars::exp(7).contents());
    assert_ne!(scalars::exp(7).contents(), scalars::exp(8).contents());
}
