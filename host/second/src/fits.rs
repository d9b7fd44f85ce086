//! "The recorded fit", "The integrated fit and its refinement", and the stand-ins they use.

/// A stored sample.
pub struct Sample {
    pub rate: f32,
    pub moment: f32,
    pub held: bool,
}

/// A done probe's model: its delay; two rate weights, three moment weights, dt_s.
pub struct Model {
    /// The delay: 2·p of the recorded fit's position p, p + 1 of the integrated one's.
    pub half_ticks: u32,
    pub floats: [f32; 6],
}

pub enum Class {
    Done(Model),
    Unexcited,
    Saturated,
    Integrated,
}

/// e to the x, x <= 0
fn expf(x: f32) -> f32 {
    let x = f64::from(x);
    if x < -104.0 {
        return 0.0;
    }
    let t = x / 1024.0;
    let series = (1..=8)
        .rev()
        .fold(1.0, |last, n| 1.0 + (t / f64::from(n)) * last);
    (0..10).fold(series, |power, _| power * power) as f32
}

/// The ticks that are rows: good, and at least the 12th of their run.
pub fn rows(window: &[Sample]) -> Vec<usize> {
    (11..window.len())
        .filter(|&k| window[k - 11..=k].iter().all(|sample| !sample.held))
        .collect()
}

/// The solution and residual of the sums at delay d.
fn recorded_at(window: &[Sample], rows: &[usize], d: usize) -> Option<([f32; 6], f32)> {
    let mut a = [[0.0f32; 6]; 6];
    let mut b = [0.0f32; 6];
    let mut squares = 0.0f32;
    for &k in rows {
        let (one, two) = (window[k - 1].rate, window[k - 2].rate);
        let moment = |at: usize| window[at].moment;
        let terms = [
            one,
            one - two,
            moment(k + 1 - d),
            moment(k - d),
            moment(k - 1 - d),
            1.0,
        ];
        let target = window[k].rate - one;
        for i in 0..6 {
            for j in 0..6 {
                a[i][j] += terms[i] * terms[j];
            }
            b[i] += terms[i] * target;
        }
        squares += target * target;
    }
    let solution = solved(a, b)?;
    let dot = (0..6).fold(0.0, |sum, i| sum + solution[i] * b[i]);
    let difference = squares - dot;
    if difference.is_nan() {
        return None;
    }
    let residual = if difference > 0.0 { difference } else { 0.0 };
    let finite = solution.iter().all(|c| c.is_finite()) && residual.is_finite();
    if finite {
        Some((solution, residual))
    } else {
        None
    }
}

/// Cholesky and the two solves; a[i][j] is row i, column j.
fn solved(mut a: [[f32; 6]; 6], b: [f32; 6]) -> Option<[f32; 6]> {
    for j in 0..6 {
        for k in 0..j {
            for i in j..6 {
                a[i][j] += (-a[j][k]) * a[i][k];
            }
        }
        if a[j][j].is_nan() || a[j][j] <= 0.0 {
            return None;
        }
        a[j][j] = a[j][j].sqrt();
        for i in j + 1..6 {
            a[i][j] /= a[j][j];
        }
    }
    let mut z = [0.0f32; 6];
    for i in 0..6 {
        z[i] = (0..i).fold(b[i], |rest, k| rest - a[i][k] * z[k]) / a[i][i];
    }
    let mut s = [0.0f32; 6];
    for i in (0..6).rev() {
        s[i] = (i + 1..6).fold(z[i], |rest, k| rest - a[k][i] * s[k]) / a[i][i];
    }
    Some(s)
}

/// The tie rule over (effect, residual) entries: a position counted from one.
fn winner(entries: &[Option<(f32, f32)>], share: f32) -> Option<usize> {
    let pass = |considered: &dyn Fn(f32) -> bool| {
        let residual_at = |n: usize| match entries.get(n) {
            Some(&Some((effect, residual))) if considered(effect) => Some(residual),
            _ => None,
        };
        let mut least = f32::NAN;
        for residual in (0..20).filter_map(residual_at) {
            if least.is_nan() || residual < least {
                least = residual;
            }
        }
        let bar = least + share * least;
        (0..20)
            .find(|&n| residual_at(n).is_some_and(|residual| residual <= bar))
            .map(|n| n + 1)
    };
    pass(&|effect| effect > 0.0).or_else(|| pass(&|_| true))
}

pub fn classify(window: &[Sample], duration: f32) -> Class {
    let rows = rows(window);
    let mean = duration / window.len().max(1) as f32;
    let count = rows.len().max(1) as f32;
    let dt_s = rows.iter().fold(0.0f32, |sum, _| sum + mean) / count;
    let fits: Vec<_> = (1..=10).map(|d| recorded_at(window, &rows, d)).collect();
    let entries: Vec<_> = fits
        .iter()
        .map(|fit| fit.map(|(c, residual)| (c[2] + c[3] + c[4], residual)))
        .collect();
    let Some(d) = winner(&entries, 0.01) else {
        return Class::Unexcited;
    };
    let (c, residual) = fits[d - 1].expect("the winner is a fit");
    if (residual / count).sqrt() <= 0.017 {
        let floats = [1.0 + c[0] + c[1], -c[1], c[2], c[3], c[4], dt_s];
        return Class::Done(Model {
            half_ticks: 2 * d as u32,
            floats,
        });
    }
    let railed = window
        .iter()
        .filter(|sample| sample.moment.abs() >= 0.999)
        .count();
    if railed as f32 > 0.2 * window.len() as f32 {
        Class::Saturated
    } else {
        Class::Integrated
    }
}

#[derive(Clone, Copy)]
struct Candidate {
    pole: f32,
    low: f32,
    high: f32,
    gain: f32,
    residual: f32,
}

/// What all gain fits of a window share: the leaky sums of 1 and of the change, for the ticks
/// from 11 on, and the products' sums.
struct Gains<'a> {
    window: &'a [Sample],
    carry: f64,
    c: Vec<f64>,
    t: Vec<f64>,
    cc: f64,
    ct: f64,
    tt: f64,
    made: u32,
}

impl<'a> Gains<'a> {
    fn new(window: &'a [Sample], dt_s: f32) -> Gains<'a> {
        let carry = f64::from(expf(-dt_s / 0.1));
        let mut gains = Gains {
            window,
            carry,
            c: Vec::new(),
            t: Vec::new(),
            cc: 0.0,
            ct: 0.0,
            tt: 0.0,
            made: 0,
        };
        let (mut c, mut t) = (0.0, 0.0);
        for k in 11..window.len() {
            c = carry * c + 1.0;
            t = carry * t + f64::from(window[k].rate - window[k - 1].rate);
            gains.cc += c * c;
            gains.ct += c * t;
            gains.tt += t * t;
            gains.c.push(c);
            gains.t.push(t);
        }
        gains
    }

    fn lagged(&self, pole: f32) -> Vec<f64> {
        let mut lagged = 0.0f32;
        let each = |sample: &Sample| {
            lagged = pole * lagged + (1.0 - pole) * sample.moment;
            f64::from(lagged)
        };
        self.window.iter().map(each).collect()
    }

    /// Gain and residual at a step, from the lagged moments.
    fn fit(&mut self, lagged: &[f64], step: usize) -> Option<(f32, f32)> {
        self.made += 1;
        let d = step / 2 + 1;
        let (a, b) = if step % 2 == 1 {
            (0.5, 0.5)
        } else {
            (1.0, 0.0)
        };
        let (cc, ct, tt) = (self.cc, self.ct, self.tt);
        let (mut m, mut mm, mut mc, mut mt) = (0.0f64, 0.0f64, 0.0f64, 0.0f64);
        for (k, (c, t)) in (11..self.window.len()).zip(self.c.iter().zip(&self.t)) {
            m = self.carry * m + (a * lagged[k + 1 - d] + b * lagged[k - d]);
            mm += m * m;
            mc += m * c;
            mt += m * t;
        }
        let det = mm * cc - mc * mc;
        let solvable = det > f64::from_bits(0x3cb0_0000_0000_0000) * mm * cc;
        if !solvable {
            return None;
        }
        let gain = (mt * cc - mc * ct) / det;
        let trim = (mm * ct - mc * mt) / det;
        let difference = tt - gain * mt - trim * ct;
        let gain = gain as f32;
        if difference.is_nan() || !gain.is_finite() {
            return None;
        }
        let residual = if difference > 0.0 { difference } else { 0.0 };
        Some((gain, residual as f32))
    }
}

/// The integrated fit's model, and the gain fits made.
pub fn integrated(window: &[Sample], duration: f32) -> (Option<Model>, u32) {
    if window.len() <= 12 {
        return (None, 0);
    }
    let dt_s = duration / window.len() as f32;
    let mut poles = vec![0.0f32];
    let mut lag = 0.001f32;
    while lag <= 0.5 {
        poles.push(expf(-dt_s / lag));
        lag *= 1.05;
    }
    assert_eq!(poles.len(), 129);
    let mut gains = Gains::new(window, dt_s);
    let mut kept: [Option<Candidate>; 20] = [None; 20];
    for (n, &pole) in poles.iter().enumerate() {
        let low = if n == 0 { 0.0 } else { poles[n - 1] };
        let high = if n == 128 { pole } else { poles[n + 1] };
        let lagged = gains.lagged(pole);
        for (step, kept) in kept.iter_mut().enumerate() {
            let Some((gain, residual)) = gains.fit(&lagged, step) else {
                continue;
            };
            match kept {
                Some(old) if residual.is_nan() || old.residual <= residual => {}
                _ => {
                    *kept = Some(Candidate {
                        pole,
                        low,
                        high,
                        gain,
                        residual,
                    })
                }
            }
        }
    }
    let entries = kept.map(|kept| kept.map(|kept| (kept.gain, kept.residual)));
    let Some(position) = winner(&entries, 0.0) else {
        return (None, gains.made);
    };
    let step = position - 1;
    let best = refined(&mut gains, step, kept[step].expect("the winner is a fit"));
    let (a, b) = if step % 2 == 1 {
        (0.5, 0.5)
    } else {
        (1.0, 0.0)
    };
    let (pole, gain) = (best.pole, best.gain);
    let floats = [
        1.0 + pole,
        -pole,
        a * gain * (1.0 - pole),
        b * gain * (1.0 - pole),
        0.0,
        dt_s,
    ];
    (
        Some(Model {
            half_ticks: position as u32 + 1,
            floats,
        }),
        gains.made,
    )
}

fn refined(gains: &mut Gains, step: usize, grid: Candidate) -> Candidate {
    let (mut low, mut high, mut best) = (grid.low, grid.high, grid);
    for _ in 0..12 {
        let left = high - 0.618034 * (high - low);
        let right = low + 0.618034 * (high - low);
        let mut trial = |pole: f32| {
            let lagged = gains.lagged(pole);
            gains.fit(&lagged, step).map(|(gain, residual)| Candidate {
                pole,
                gain,
                residual,
                ..grid
            })
        };
        let (left_fit, right_fit) = (trial(left), trial(right));
        let (Some(left_fit), Some(right_fit)) = (left_fit, right_fit) else {
            break;
        };
        let kept = if left_fit.residual < right_fit.residual {
            high = right;
            left_fit
        } else {
            low = left;
            right_fit
        };
        if kept.residual < best.residual {
            best = kept;
        }
    }
    best
}

#[cfg(test)]
mod tests {
    use super::winner;

    #[test]
    fn marked_tie_rules() {
        assert_eq!(winner(&[], 0.0), None);
        assert_eq!(winner(&[Some((1.0, 1.25)), Some((1.0, 1.0))], 0.0), Some(2));
        assert_eq!(
            winner(&[Some((1.0, 1.0078125)), Some((1.0, 1.0))], 0.01),
            Some(1)
        );
        assert_eq!(winner(&[Some((-1.0, 0.5)), Some((1.0, 2.0))], 0.0), Some(2));
        assert_eq!(winner(&[Some((1.0, f32::INFINITY))], 0.0), None);
        let mut late = [None; 21];
        late[20] = Some((1.0, 1.0));
        assert_eq!(winner(&late, 0.0), None);
    }
}
