//! The account of a list of calls, straight from document 01: what a list must leave behind,
//! counted from the configuration and the calls alone. Only the classification of the entries
//! is the Rust's.

use crate::access::{self, Class, IdentifyConfig, Samples};
use crate::byte_run::Call;

/// The account after a list of calls.
#[derive(Clone, Debug)]
pub struct Account {
    elapsed_s: f32,
    end_s: f32,
    extension_unused: bool,
    pub ended: bool,
    pub ticks: u32,
    pub entries: Vec<Entry>,
    pub duration_s: f32,
    /// The number that turned each call back, 0 for none.
    pub turned_back: Vec<u32>,
    /// The answer of the last classification.
    pub class: Option<Class>,
    /// How the extension was taken.
    pub taken: Option<Taken>,
}

/// How an account takes the extension.
#[derive(Clone, Copy, Debug, PartialEq)]
pub struct Taken {
    /// Its own entries were integrated.
    pub wanted: bool,
    /// Those of another axis were.
    pub asked: bool,
    /// It was not reached already.
    pub went_on: bool,
}

/// A stored sample.
#[derive(Clone, Copy, Debug, PartialEq)]
pub struct Entry {
    pub rate: f32,
    pub moment: f32,
    pub held: bool,
}

impl Account {
    fn fresh(config: &IdentifyConfig) -> Account {
        Account {
            elapsed_s: 0.0,
            end_s: config.duration_s,
            extension_unused: config.noisy.is_some(),
            ended: false,
            ticks: 0,
            entries: Vec::new(),
            duration_s: 0.0,
            turned_back: Vec::new(),
            class: None,
            taken: None,
        }
    }

    /// The account of `calls` to a fresh probe of a configuration that passes 1 to 5.
    pub fn of(config: &IdentifyConfig, calls: impl Iterator<Item = Call>) -> Account {
        let mut account = Account::fresh(config);
        for call in calls {
            if account.accepts(call.dt) {
                account.enter(call);
                let class = account.class_due();
                account.close(config, class, false);
            }
        }
        account
    }

    /// The accounts of two axes in one flight. Each is that of a single probe, but that each asks
    /// the other for the extension where its own entries are integrated.
    pub fn of_two(config: &IdentifyConfig, calls: impl Iterator<Item = [Call; 2]>) -> [Account; 2] {
        let mut accounts = [(); 2].map(|()| Account::fresh(config));
        for calls in calls {
            let [first, second] = &mut accounts;
            let [of_first, of_second] = calls;
            let accepted = [first.accepts(of_first.dt), second.accepts(of_second.dt)];
            assert_eq!(accepted[0], accepted[1], "a call is accepted by both");
            if accepted == [true; 2] {
                first.enter(of_first);
                second.enter(of_second);
                let classes = [first.class_due(), second.class_due()];
                let [first_asks, second_asks] =
                    classes.map(|class| class == Some(Class::Integrated));
                first.close(config, classes[0], second_asks);
                second.close(config, classes[1], first_asks);
            }
        }
        accounts
    }

    /// Whether the account goes on with a call; a number that turns it back is kept.
    fn accepts(&mut self, dt: f32) -> bool {
        let number = self.turns_back(dt);
        self.turned_back.push(number);
        number == 0 && !self.ended
    }

    /// The number that turns a call back on the account's numbers, or 0.
    fn turns_back(&self, dt: f32) -> u32 {
        if dt.is_nan() || dt <= 0.0 || dt == f32::INFINITY {
            6
        } else if self.ended {
            0
        } else if self.elapsed_s + dt > 4096.0 {
            7
        } else if self.ticks >= 1 << 24 {
            8
        } else {
            0
        }
    }

    /// A call that is accepted, up to its entry.
    fn enter(&mut self, call: Call) {
        self.elapsed_s += call.dt;
        self.ticks += 1;
        if self.entries.len() < 2048 {
            let last = self.entries.last().copied();
            let rate_ok = call.rate.abs() <= f32::MAX;
            let moment_ok = call.moment.abs() <= f32::MAX;
            self.entries.push(Entry {
                rate: if rate_ok {
                    call.rate
                } else {
                    last.map_or(0.0, |last| last.rate)
                },
                moment: if moment_ok {
                    call.moment
                } else {
                    last.map_or(0.0, |last| last.moment)
                },
                held: !rate_ok || !moment_ok,
            });
            self.duration_s += call.dt;
        }
    }

    /// The class of the entries at the end time; none before it.
    fn class_due(&self) -> Option<Class> {
        let below = self.elapsed_s < self.end_s;
        (!below).then(|| access::classify(&self.samples()))
    }

    /// The end of a call, at which another axis asks for the extension or not.
    fn close(&mut self, config: &IdentifyConfig, class: Option<Class>, asked: bool) {
        let Some(class) = class else {
            return;
        };
        self.class = Some(class);
        let wanted = class == Class::Integrated;
        if (wanted || asked) && self.extension_unused {
            let extension = config.noisy.expect("an unused extension");
            self.end_s = extension.duration_s;
            self.extension_unused = false;
            let went_on = self.elapsed_s < self.end_s;
            self.taken = Some(Taken {
                wanted,
                asked,
                went_on,
            });
            if went_on {
                return;
            }
        }
        self.ended = true;
    }

    /// Whether the extension was taken and the account went on.
    pub fn extended(&self) -> bool {
        self.taken.is_some_and(|taken| taken.went_on)
    }

    /// The entries as a window's contents.
    fn samples(&self) -> Samples {
        Samples {
            rates: self.entries.iter().map(|entry| entry.rate).collect(),
            moments: self.entries.iter().map(|entry| entry.moment).collect(),
            offsets: Vec::new(),
            held: self.entries.iter().map(|entry| entry.held).collect(),
            duration_s: self.duration_s,
        }
    }

    pub fn stored(&self) -> u32 {
        self.entries.len() as u32
    }

    pub fn held(&self) -> u32 {
        self.entries.iter().map(|entry| u32::from(entry.held)).sum()
    }

    /// Warm samples and rows: each good run gives its first 11 to warm, the others to rows.
    pub fn warm_and_rows(&self) -> (u32, u32) {
        let (mut warm, mut rows, mut run) = (0, 0, 0);
        for entry in &self.entries {
            run = if entry.held { 0 } else { run + 1 };
            match run {
                0 => {}
                1..=11 => warm += 1,
                _ => rows += 1,
            }
        }
        (warm, rows)
    }
}
