//! The plain C servers and desks do the same work as the proved library's and the model's: on random steps, with messages sent, forged and damaged, the
//! three give the same answers and write the same bytes; the C and the library leave the same records, byte for byte, and the model's records hold the
//! same. Most houses do not start level. Records that were damaged, which the model cannot have, are given to the C and the library, and so are
//! numbers and lists by which no party is opened.

use bench::machine::{Model, ModelDesk, ModelServer};
use bench::native::{Native, CORE, LENT, PLAIN, VALUE};
use bench::records::{Desk, Plain, Replica, Server};
use bench::store::Store;
use model::machine::record::{desk_line, server_line};
use model::machine::register::Pair;
use model::machine::sheet::Party;
use model::random::{bad_cluster, Random};
use model::runs::forge::forge;
use model::runs::seen::shown;
use model::starts::{config, unlawful};
use model::weights::{Config, Ledger};
use std::collections::BTreeMap;

const SEED: u64 = 20_241_116;
const RUNS: u64 = 120;
const STEPS: u64 = 250;

/// Stands in a tally for a reply that came too late.
const LATE: i64 = -1;

/// Stand there for a margin below 0 and above it.
const BELOW: i64 = -2;
const ABOVE: i64 = -3;

/// The desks of a run have numbers from 1 to this.
const DESKS: u64 = 3;

#[test]
fn servers_and_desks_do_the_same() {
    let mut tally = BTreeMap::new();
    for run in 0..RUNS {
        let mut random = Random::of_case(SEED, run);
        let mut trio = Trio::open(&mut random);
        for step in 0..STEPS {
            trio.step(&mut random, &mut tally, &format!("run {run}, step {step}"));
        }
    }
    for ((call, answer), times) in &tally {
        println!("{call}: {answer}: {times}");
    }
    // Every refusal that a call can give was given, and every call was accepted.
    for (call, answers) in [
        ("transfer", &[0, 10, 11][..]),
        ("share", &[0, 13]),
        ("serve", &[0, 2, 3, 4, 5, 6, 7, 13]),
        ("begin", &[0, 8, 14]),
        ("ask", &[0, 1, 9, 13]),
        ("hear", &[LATE, 0, 2, 3, 4, 5, 6, 7, 12]),
        ("result", &[0, 9]),
        ("margin", &[BELOW, 0, 9]),
        ("drop", &[0, 9]),
    ] {
        for answer in answers {
            assert!(tally.contains_key(&(call, *answer)), "{call}: {answer}");
        }
    }
}

#[test]
fn damaged_records_get_the_same_answers() {
    let mut tally = BTreeMap::new();
    let mut refused = 0;
    for run in 0..RUNS {
        let mut random = Random::of_case(!SEED, run);
        let mut trio = Trio::open(&mut random);
        for step in 0..STEPS {
            trio.step(&mut random, &mut tally, &format!("run {run}, step {step}"));
            if random.one_in(2) {
                let words = format!("run {run}, damage {step}");
                refused += trio.damaged(&mut random, &mut tally, &words);
            }
        }
    }
    // Some damage is to the value's bytes, or to a number within its range.
    let damaged = RUNS * STEPS;
    assert!(refused > damaged / 8, "{refused} of about {damaged}");
    // No call leaves a margin above 0 in a record, but damage does.
    for answer in [BELOW, 0, ABOVE, 1, 9] {
        let times = tally.get(&("margin, damaged", answer));
        assert!(times.is_some(), "margin of a damaged desk: {answer}");
    }
}

#[test]
fn openings_do_the_same() {
    let mut tally = BTreeMap::new();
    for run in 0..RUNS * STEPS {
        let mut random = Random::of_case(SEED ^ 2, run);
        let house = config(&mut random);
        let (n, f, mut starts) = (house.n() as u64, house.f() as u64, house.starts());
        if random.one_in(2) {
            starts = unlawful(&mut random, n, f);
        }
        let (n, f) = match random.below(4) {
            0 => bad_cluster(&mut random),
            _ => (n, f),
        };
        let number = match random.below(4) {
            0 => random.word() >> random.below(64),
            _ => random.within(1, n.clamp(2, 16)) - 1,
        };
        let words = format!("{n} {f} {number} {starts:?}");
        let servers = [CORE, PLAIN, VALUE].map(|by| by.opened_server(n, f, number, &starts));
        assert!(servers == [servers[0]; 3], "{words}");
        let desks = [CORE, PLAIN, VALUE].map(|by| by.opened_desk(n, f, number, &starts));
        assert!(desks == [desks[0]; 3], "{words}");
        let model = Config::new(n, f, &starts).map_err(|place| place.number());
        let outside = [number >= n, number == 0 || number > 65_535];
        for (answer, outside) in [servers[0].0, desks[0].0].into_iter().zip(outside) {
            let expected = match model {
                Err(1) => -1_000_001,
                _ if outside => -1_000_001,
                Err(refused) => -1_000_000 - i64::from(refused),
                Ok(_) => 0,
            };
            assert_eq!(answer, expected, "{words}");
            count(&mut tally, "open", answer);
        }
    }
    println!("{tally:?}");
    assert_eq!(tally.len(), 3, "0, 1 and 15");
}

#[test]
fn kinds_and_phases_go_with_the_mode() {
    let mut reached = BTreeMap::new();
    for run in 0..RUNS {
        let mut random = Random::of_case(SEED ^ 1, run);
        let mut trio = Trio::open(&mut random);
        for step in 0..STEPS {
            let words = format!("run {run}, step {step}");
            trio.step(&mut random, &mut Tally::new(), &words);
            let i = random.index(trio.desks.len());
            let mut desk = trio.desks[i].core;
            desk.operation.kind = most_often_small(&mut random);
            desk.operation.phase = most_often_small(&mut random);
            let fits = desk.operation.has_kind_and_phase();
            let dropped = trio.on_desk(&mut random, &mut Tally::new(), i, &desk, &words);
            assert_eq!(dropped != -1_000_001, fits, "{words}: {:?}", desk.operation);
            *reached.entry((desk.operation.mode, fits)).or_insert(0) += 1;
        }
    }
    println!("records by mode, and whether kind and phase go with it: {reached:?}");
    assert_eq!(reached.len(), 6);
}

/// A number of 16 bits, most often 0 to 4.
fn most_often_small(random: &mut Random) -> u16 {
    if random.one_in(8) {
        random.word() as u16
    } else {
        random.below(5) as u16
    }
}

/// One party in three implementations.
struct Three<C, M> {
    core: C,
    plain: C,
    model: M,
}

struct Trio {
    config: Config,
    servers: Vec<Three<Server, ModelServer>>,
    desks: Vec<Three<Desk, ModelDesk>>,
    /// Every message that was sent.
    sent: Vec<Vec<u8>>,
}

/// How often a call gave an answer: 0, `LATE`, `BELOW`, `ABOVE`, or the number of a refusal.
type Tally = BTreeMap<(&'static str, i64), u64>;

/// What is compared of a call beside its record: the answer, the place after what was written, and the whole buffer.
#[derive(Debug, PartialEq)]
struct Said {
    answer: i64,
    end: usize,
    out: Vec<u8>,
}

impl Trio {
    fn open(random: &mut Random) -> Trio {
        let config = config(random);
        Trio {
            config,
            servers: (0..config.n() as u64)
                .map(|i| Three {
                    core: CORE.open_server(config, i),
                    plain: PLAIN.open_server(config, i),
                    model: Model.open_server(config, i),
                })
                .collect(),
            desks: (1..=DESKS)
                .map(|i| Three {
                    core: CORE.open_desk(config, i),
                    plain: PLAIN.open_desk(config, i),
                    model: Model.open_desk(config, i),
                })
                .collect(),
            sent: Vec::new(),
        }
    }

    fn step(&mut self, random: &mut Random, tally: &mut Tally, words: &str) {
        let server = random.index(self.servers.len());
        let desk = random.index(self.desks.len());
        match random.below(32) {
            0..=3 => self.transfer(random, tally, server, words),
            4..=5 => self.share(random, tally, server, words),
            6..=14 => self.serve(random, tally, server, words),
            15..=17 => self.begin(random, tally, desk, words),
            18..=21 => self.ask(random, tally, desk, words),
            22..=29 => self.hear(random, tally, desk, words),
            30 => self.result(tally, desk, words),
            _ if random.one_in(2) => self.drop(tally, desk, words),
            _ => self.operate(random, desk, words),
        }
    }

    fn transfer(&mut self, random: &mut Random, tally: &mut Tally, i: usize, words: &str) {
        let n = self.servers.len() as u64;
        let taker = random.below(n + 1);
        let held = &self.servers[i].model.server.pair.sheet;
        let spare = self.config.spare(held.weights(self.config)[i]) as u64;
        let amount = match random.below(10) {
            0 => 0,
            1 => random.word(),
            2 => random.below(1_500),
            3 => spare,
            4 => spare + 1,
            _ => random.below(120),
        };
        let three = &mut self.servers[i];
        let core = CORE.transfer(&mut three.core, taker, amount);
        let plain = PLAIN.transfer(&mut three.plain, taker, amount);
        let model = Model.transfer(&mut three.model, taker, amount);
        assert_eq!([core, plain], [model; 2], "{words}: transfer");
        count(tally, "transfer", core);
        self.compare_server(i, words);
    }

    fn share(&mut self, random: &mut Random, tally: &mut Tally, i: usize, words: &str) {
        let (mut out, at) = room(random);
        let three = &self.servers[i];
        let core = written(&mut out.clone(), |out| CORE.share(&three.core, out, at));
        let plain = written(&mut out.clone(), |out| PLAIN.share(&three.plain, out, at));
        let model = written(&mut out, |out| Model.share(&three.model, out, at));
        self.sent(tally, "share", at, [core, plain, model], words);
    }

    fn serve(&mut self, random: &mut Random, tally: &mut Tally, i: usize, words: &str) {
        let (mut out, at) = room(random);
        let line = server_line(self.config, &self.servers[i].model.server, false);
        let message = self.message(random, Party::Server(i), i as u64, &line);
        let three = &mut self.servers[i];
        let core = served(CORE, &mut three.core, &message, &mut out.clone(), at);
        let plain = served(PLAIN, &mut three.plain, &message, &mut out.clone(), at);
        let model = served(Model, &mut three.model, &message, &mut out, at);
        self.sent(tally, "serve", at, [core, plain, model], words);
        self.compare_server(i, words);
    }

    fn begin(&mut self, random: &mut Random, tally: &mut Tally, i: usize, words: &str) {
        let note = if random.one_in(2) {
            0
        } else {
            random.word() as u32
        };
        let three = &mut self.desks[i];
        let answers = if random.one_in(2) {
            [
                CORE.begin_read(&mut three.core, note),
                PLAIN.begin_read(&mut three.plain, note),
                Model.begin_read(&mut three.model, note),
            ]
        } else {
            let length = if random.one_in(8) {
                random.within(65, 80)
            } else {
                random.below(65)
            };
            let value = random.bytes(length as usize);
            [
                CORE.begin_write(&mut three.core, note, &value),
                PLAIN.begin_write(&mut three.plain, note, &value),
                Model.begin_write(&mut three.model, note, &value),
            ]
        };
        assert_eq!(answers, [answers[0]; 3], "{words}: begin");
        count(tally, "begin", answers[0]);
        self.compare_desk(i, words);
        self.margin(tally, i, words);
    }

    fn ask(&mut self, random: &mut Random, tally: &mut Tally, i: usize, words: &str) {
        let (mut out, at) = room(random);
        let server = random.below(self.servers.len() as u64 + 1);
        let three = &self.desks[i];
        let core = written(&mut out.clone(), |out| {
            CORE.ask(&three.core, server, out, at)
        });
        let plain = written(&mut out.clone(), |out| {
            PLAIN.ask(&three.plain, server, out, at)
        });
        let model = written(&mut out, |out| Model.ask(&three.model, server, out, at));
        self.sent(tally, "ask", at, [core, plain, model], words);
    }

    fn hear(&mut self, random: &mut Random, tally: &mut Tally, i: usize, words: &str) {
        let line = desk_line(self.config, &self.desks[i].model.desk);
        let message = self.message(random, Party::Desk, i as u64 + 1, &line);
        self.heard(tally, i, &message, words);
    }

    fn heard(&mut self, tally: &mut Tally, i: usize, message: &[u8], words: &str) {
        let three = &mut self.desks[i];
        let mut lent = three.core;
        let core = CORE.hear(&mut three.core, message);
        assert_eq!(
            LENT.hear(&mut lent, message),
            core,
            "{words}: hear on a lent record"
        );
        assert!(lent == three.core, "{words}: the lent record");
        let plain = PLAIN.hear(&mut three.plain, message);
        let model = Model.hear(&mut three.model, message);
        assert_eq!([core, plain], [model; 2], "{words}: hear");
        count(tally, "hear", core);
        self.compare_desk(i, words);
        self.margin(tally, i, words);
    }

    fn result(&mut self, tally: &mut Tally, i: usize, words: &str) {
        let three = &self.desks[i];
        let core = CORE.result(&three.core);
        assert_eq!(core, PLAIN.result(&three.plain), "{words}: result");
        assert_eq!(core, Model.result(&three.model), "{words}: result");
        count(tally, "result", core.answer);
    }

    fn drop(&mut self, tally: &mut Tally, i: usize, words: &str) {
        let three = &mut self.desks[i];
        let core = CORE.drop(&mut three.core);
        let plain = PLAIN.drop(&mut three.plain);
        let model = Model.drop(&mut three.model);
        assert_eq!([core, plain], [model; 2], "{words}: drop");
        count(tally, "drop", core);
        self.compare_desk(i, words);
        self.margin(tally, i, words);
    }

    /// How far the operation is from a quorum, after every step of a desk.
    fn margin(&self, tally: &mut Tally, i: usize, words: &str) {
        let three = &self.desks[i];
        let core = CORE.margin(&three.core);
        let plain = [PLAIN, VALUE].map(|by| by.margin(&three.plain));
        assert_eq!([core; 2], plain, "{words}: margin");
        assert_eq!(core, Model.margin(&three.model), "{words}: margin");
        count(tally, "margin", core);
    }

    /// A whole operation, in which restarts and ends of phases come about: every server is asked and heard, round by round.
    fn operate(&mut self, random: &mut Random, i: usize, words: &str) {
        let mut tally = Tally::new();
        self.drop(&mut tally, i, words);
        self.begin(random, &mut tally, i, words);
        for _ in 0..12 {
            for server in 0..self.servers.len() {
                let mut request = [0; 1111];
                let answer = CORE.ask(&self.desks[i].core, server as u64, &mut request, 0);
                let Ok(end) = usize::try_from(answer) else {
                    return;
                };
                let three = &mut self.servers[server];
                let request = &request[..end];
                let core = served(CORE, &mut three.core, request, &mut [0; 1111], 0);
                let plain = served(PLAIN, &mut three.plain, request, &mut [0; 1111], 0);
                let model = served(Model, &mut three.model, request, &mut [0; 1111], 0);
                let reply = core.out[..core.end].to_vec();
                self.sent(&mut tally, "serve", 0, [core, plain, model], words);
                self.compare_server(server, words);
                self.heard(&mut tally, i, &reply, words);
            }
        }
        self.result(&mut tally, i, words);
    }

    /// A message that was sent, most often to this party, or one that is forged or damaged.
    fn message(&self, random: &mut Random, party: Party, number: u64, line: &str) -> Vec<u8> {
        if self.sent.is_empty() || random.one_in(3) {
            let held = shown(line).expect("a record's line");
            return forge(random, self.config, party, number, &held).bytes;
        }
        // One of the last, which is often still current.
        let from = self.sent.len().saturating_sub(24);
        self.sent[from + random.index(self.sent.len() - from)].clone()
    }

    /// Compares what the three said of a call that writes, and keeps the message.
    fn sent(
        &mut self,
        tally: &mut Tally,
        call: &'static str,
        at: usize,
        [core, plain, model]: [Said; 3],
        words: &str,
    ) {
        assert!(
            plain == core,
            "{words}: {call}: {core:?} by the library, {plain:?} by the C"
        );
        assert!(
            model == core,
            "{words}: {call}: {core:?} by the library, {model:?} by the model"
        );
        count(tally, call, core.answer);
        if core.answer >= 0 && core.end > at {
            self.sent.push(core.out[at..core.end].to_vec());
        }
    }

    fn compare_server(&self, i: usize, words: &str) {
        let three = &self.servers[i];
        assert!(three.core == three.plain, "{words}: the records differ");
        assert!(
            holds(&three.core.replica, &three.model.server.pair),
            "{words}: the model's record differs"
        );
    }

    fn compare_desk(&self, i: usize, words: &str) {
        let three = &self.desks[i];
        assert!(three.core == three.plain, "{words}: the records differ");
        assert!(
            holds(&three.core.replica, &three.model.desk.pair)
                && CORE.round(&three.core) == Model.round(&three.model)
                && CORE.ended(&three.core) == Model.ended(&three.model),
            "{words}: the model's record differs"
        );
    }

    /// Copies of a server's and a desk's record are damaged, and each call is made on them by the library and by the C, in place and by value. How many
    /// records were refused.
    fn damaged(&self, random: &mut Random, tally: &mut Tally, words: &str) -> u64 {
        let i = random.index(self.servers.len());
        let mut server = self.servers[i].core;
        damage(random, &mut server);
        let line = server_line(self.config, &self.servers[i].model.server, false);
        let message = self.message(random, Party::Server(i), i as u64, &line);
        let taker = random.below(self.servers.len() as u64);
        let on_server = |by: Native| {
            let (mut given, mut taken) = (server, server);
            let answer = by.transfer(&mut given, taker, 1);
            let shared = written(&mut [7; 1111], |out| by.share(&server, out, 0));
            let served = served(by, &mut taken, &message, &mut [7; 1111], 0);
            (answer, given, shared, served, taken)
        };
        let core = on_server(CORE);
        assert!(core == on_server(PLAIN), "{words}: a damaged server");
        assert!(
            core == on_server(VALUE),
            "{words}: a damaged server by value"
        );

        let i = random.index(self.desks.len());
        let mut desk = self.desks[i].core;
        damage(random, &mut desk);
        let dropped = self.on_desk(random, tally, i, &desk, words);
        u64::from(core.2.answer == -1_000_001) + u64::from(dropped == -1_000_001)
    }

    /// Each call on a record that stands for a desk, by the library, on a record that is lent, and by the C, in place and by value. What drop answers.
    fn on_desk(
        &self,
        random: &mut Random,
        tally: &mut Tally,
        i: usize,
        desk: &Desk,
        words: &str,
    ) -> i64 {
        let line = desk_line(self.config, &self.desks[i].model.desk);
        let message = self.message(random, Party::Desk, i as u64 + 1, &line);
        let on_desk = |by: Native| {
            let (mut begun, mut heard, mut dropped) = (*desk, *desk, *desk);
            let answers = [
                by.begin_write(&mut begun, 9, &message[..message.len().min(70)]),
                by.hear(&mut heard, &message),
                by.drop(&mut dropped),
                by.margin(desk),
            ];
            let asked = written(&mut [7; 1111], |out| by.ask(desk, 0, out, 0));
            (answers, begun, heard, dropped, asked, by.result(desk))
        };
        let of_desk = on_desk(CORE);
        assert!(of_desk == on_desk(PLAIN), "{words}: a damaged desk");
        assert!(
            of_desk == on_desk(VALUE),
            "{words}: a damaged desk by value"
        );
        assert!(of_desk == on_desk(LENT), "{words}: a damaged lent desk");
        let [_, _, dropped, margin] = of_desk.0;
        count(tally, "margin, damaged", margin);
        dropped
    }
}

/// What lies before the ledger in a record: n, f, the start weights and the number.
const HEAD: usize = 8 + 8 + 32 + 8;

/// Changes one to three bytes.
fn damage(random: &mut Random, record: &mut impl Plain) {
    for _ in 0..random.within(1, 3) {
        let bytes = record.bytes();
        // The ledger's cells are most of a record; the fields around them are hit as often, and the start weights too.
        let place = match random.below(5) {
            0 => random.index(HEAD + 32),
            1 => random.index(bytes.len()),
            2 => 16 + random.index(32),
            _ => HEAD + 1056 + random.index(bytes.len() - HEAD - 1056),
        };
        bytes[place] = match random.below(4) {
            0 => random.word() as u8,
            1 => 0,
            2 => bytes[place].wrapping_add(1),
            _ => bytes[place] ^ 1 << random.below(8),
        };
    }
}

/// A buffer with bytes in it and a place, most often with room for any message.
fn room(random: &mut Random) -> (Vec<u8>, usize) {
    let length = match random.below(8) {
        0 => random.index(80),
        1 => random.index(1_200),
        _ => 1_200,
    };
    let at = match random.below(16) {
        0 => random.index(1_300),
        1 => usize::MAX,
        _ => random.index(60),
    };
    (random.bytes(length), at)
}

/// What a call says that writes a message and answers the place after it.
fn written(out: &mut [u8], call: impl FnOnce(&mut [u8]) -> i64) -> Said {
    let answer = call(out);
    Said {
        answer: answer.min(0),
        end: usize::try_from(answer).unwrap_or(0),
        out: out.to_vec(),
    }
}

fn served<S: Store>(
    by: S,
    server: &mut S::Server,
    message: &[u8],
    out: &mut [u8],
    at: usize,
) -> Said {
    let (answer, end) = by.serve(server, message, out, at);
    Said {
        answer,
        end,
        out: out.to_vec(),
    }
}

/// Whether a record holds what the model holds.
fn holds(replica: &Replica, pair: &Pair<Ledger>) -> bool {
    let register = &pair.register;
    let value = &replica.register.value;
    replica.ledger.counts == pair.sheet.counts
        && replica.ledger.cells == pair.sheet.cells
        && (replica.register.stamp, replica.register.desk)
            == (register.tag.stamp, register.tag.desk)
        && value.bytes[..value.length.into()] == *register.value
}

/// Counts 0, `LATE`, `BELOW`, `ABOVE`, or the number of a refusal.
fn count(tally: &mut Tally, call: &'static str, answer: i64) {
    let number = match answer {
        0 => 0,
        1 => LATE,
        -16_000..=-1 => BELOW,
        2..=16_000 => ABOVE,
        _ => -1_000_000 - answer,
    };
    *tally.entry((call, number)).or_default() += 1;
}
