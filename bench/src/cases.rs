//! What is timed: a call with its arguments, the same for each implementation.

use crate::implementation::{Implementation, ALL};
use crate::machine::Model;
use crate::messages;
use crate::native;
use crate::scene::{self, accepted, written, Cluster, Scene, NOTE, ROOM};
use crate::store::Store;
use model::calls::Calls;
use model::weights::level;
use std::hint::black_box;

/// What a case is about, which decides the table that it stands in.
#[derive(Clone, Copy, PartialEq, Eq)]
pub enum Group {
    /// A question about a message or a block.
    Message,
    /// One call on a server or a desk.
    Record,
    /// A whole write or read.
    Operation,
}

/// A case for one implementation: what it answers, and the call made so many times over.
pub struct Subject {
    pub said: Vec<u8>,
    pub repeat: Box<dyn FnMut(u32)>,
}

pub struct Case {
    pub name: String,
    pub group: Group,
    /// The length of the message or block that the call reads, or else of what it writes; 0 where it does neither.
    pub bytes: usize,
    /// Makes the subject of an implementation, by its place in `implementation::ALL`.
    pub by: Box<dyn Fn(usize) -> Subject>,
}

pub fn all() -> Vec<Case> {
    let mut cases = messages();
    cases.extend(records(scene::small));
    cases.extend(records(scene::full));
    cases.extend(operations(scene::small));
    cases.extend(operations(scene::full));
    cases
}

// ---- questions about messages

#[derive(Clone, Copy)]
enum Question {
    Check,
    Weight { server: u64 },
    Quorum { map: u64 },
    Seats,
}

impl Question {
    /// In a cluster whose servers start level.
    fn case(self, name: &str, n: u64, f: u64, bytes: Vec<u8>) -> Case {
        let starts = level(n);
        Case {
            name: name.to_string(),
            group: Group::Message,
            bytes: bytes.len(),
            by: Box::new(move |i| {
                let all: &'static [Implementation; 3] = &ALL;
                let calls = &all[i].calls;
                let answer = self.ask(calls, n, f, &starts, &bytes);
                Subject {
                    said: answer.to_le_bytes().to_vec(),
                    repeat: self.repeated(calls, n, f, starts.clone(), bytes.clone()),
                }
            }),
        }
    }

    fn ask(self, by: &Calls, n: u64, f: u64, starts: &[u64], bytes: &[u8]) -> i64 {
        match self {
            Question::Check => (by.check)(n, f, starts, bytes),
            Question::Weight { server } => (by.weight)(n, f, starts, server, bytes),
            Question::Quorum { map } => (by.quorum)(n, f, starts, map, bytes),
            Question::Seats => (by.seats)(bytes),
        }
    }

    /// The compiler knows neither the function, nor its arguments, nor that the answers are thrown away.
    fn repeated(
        self,
        by: &'static Calls,
        n: u64,
        f: u64,
        starts: Vec<u64>,
        bytes: Vec<u8>,
    ) -> Box<dyn FnMut(u32)> {
        Box::new(move |times| {
            let by = black_box(by);
            let (n, f, starts, bytes) = (n, f, starts.as_slice(), bytes.as_slice());
            match self {
                Question::Check => each(times, || {
                    (by.check)(
                        black_box(n),
                        black_box(f),
                        black_box(starts),
                        black_box(bytes),
                    )
                }),
                Question::Weight { server } => each(times, || {
                    (by.weight)(
                        black_box(n),
                        black_box(f),
                        black_box(starts),
                        black_box(server),
                        black_box(bytes),
                    )
                }),
                Question::Quorum { map } => each(times, || {
                    (by.quorum)(
                        black_box(n),
                        black_box(f),
                        black_box(starts),
                        black_box(map),
                        black_box(bytes),
                    )
                }),
                Question::Seats => each(times, || (by.seats)(black_box(bytes))),
            }
        })
    }
}

fn each<T>(times: u32, mut call: impl FnMut() -> T) {
    for _ in 0..times {
        black_box(call());
    }
}

fn messages() -> Vec<Case> {
    let quorum = |map| Question::Quorum { map };
    let weight = |server| Question::Weight { server };
    let (middle, longest) = (messages::middle(), messages::longest());
    vec![
        Question::Check.case("check, small share", 5, 1, messages::SHARE.to_vec()),
        Question::Check.case("check, middle reply", 5, 1, middle.clone()),
        Question::Check.case("check, longest reply", 16, 7, longest.clone()),
        Question::Check.case(
            "check, middle reply cut in two (refused)",
            5,
            1,
            messages::cut(),
        ),
        weight(2).case("weight, middle reply", 5, 1, middle.clone()),
        weight(9).case("weight, longest reply", 16, 7, longest.clone()),
        quorum(0b10110).case("quorum, middle reply", 5, 1, middle),
        quorum(0b0101_1011_0110_1101).case("quorum, longest reply", 16, 7, longest),
        Question::Seats.case("seats, full block", 5, 1, messages::block(64)),
    ]
}

// ---- calls on servers and desks

#[derive(Clone, Copy)]
enum Call {
    /// A request of a read in its first phase, which brings the server nothing new: it is joined, and the reply carries all that the server holds.
    Serve,
    /// A request with a transfer that the server has not heard of, on a copy of the record: its row is taken, and the reply carries it.
    ServeNewer,
    /// The same request to a server that was told another transfer of that number: it is refused (6).
    ServeClash,
    /// The reply to the first one, which marks the server that sent it and brings nothing new.
    Hear,
    Ask,
    Share,
    /// One unit of weight, on a copy of the record.
    Transfer,
    /// A write, on a copy of the record.
    Begin,
    Result,
    /// How far the read is from a quorum once the reply of server 0 is heard.
    Margin,
}

/// What a call is made on: the cluster after its first write, a desk that has begun a read, the request and the reply of server 0, and the desk that
/// has heard this; a request to server 0 from a desk that has heard of one transfer more, and server 0 where it was told another transfer in the place
/// of that one.
struct Stage<S: Store> {
    cluster: Cluster<S>,
    reading: S::Desk,
    answered: S::Desk,
    request: Vec<u8>,
    reply: Vec<u8>,
    newer: Vec<u8>,
    misled: S::Server,
    value: Vec<u8>,
}

impl<S: Store> Stage<S> {
    fn open(store: S, scene: &Scene) -> Stage<S> {
        let mut cluster = Cluster::open(store, scene);
        let store = &cluster.store;
        let mut room = [0; ROOM];
        let mut reading = cluster.desk.clone();
        store.begin_read(&mut reading, NOTE);
        let end = written(store.ask(&reading, 0, &mut room, 0));
        let request = room[..end].to_vec();
        let (_, end) = store.serve(&mut cluster.servers[0], &request, &mut room, 0);
        let reply = room[..end].to_vec();
        let mut answered = reading.clone();
        accepted(store.hear(&mut answered, &reply));
        let newer = Self::newer(&cluster, &reading);
        let misled = Self::misled(&cluster);
        Stage {
            cluster,
            reading,
            answered,
            request,
            reply,
            newer,
            misled,
            value: scene.value.clone(),
        }
    }

    /// A request to server 0 from a desk to which server 1 told a transfer that it has just made.
    fn newer(cluster: &Cluster<S>, reading: &S::Desk) -> Vec<u8> {
        let store = &cluster.store;
        let mut room = [0; ROOM];
        let mut told = [0; ROOM];
        let mut giver = cluster.servers[1].clone();
        let mut desk = reading.clone();
        accepted(store.transfer(&mut giver, 2, 1));
        let end = written(store.ask(&desk, 1, &mut room, 0));
        let (answer, end) = store.serve(&mut giver, &room[..end], &mut told, 0);
        accepted(answer);
        accepted(store.hear(&mut desk, &told[..end]));
        let end = written(store.ask(&desk, 0, &mut room, 0));
        room[..end].to_vec()
    }

    /// Server 0 once server 1 has told it a transfer to another server.
    fn misled(cluster: &Cluster<S>) -> S::Server {
        let store = &cluster.store;
        let mut room = [0; ROOM];
        let mut giver = cluster.servers[1].clone();
        let mut server = cluster.servers[0].clone();
        accepted(store.transfer(&mut giver, 3, 1));
        let end = written(store.share(&giver, &mut room, 0));
        accepted(store.serve(&mut server, &room[..end], &mut [], 0).0);
        server
    }

    /// How many bytes the call reads, or else writes.
    fn bytes(&self, call: Call) -> usize {
        let mut room = [0; ROOM];
        let store = &self.cluster.store;
        match call {
            Call::Serve => self.request.len(),
            Call::ServeNewer | Call::ServeClash => self.newer.len(),
            Call::Hear => self.reply.len(),
            Call::Ask => self.request.len(),
            Call::Share => written(store.share(&self.cluster.servers[0], &mut room, 0)),
            Call::Begin => self.value.len(),
            Call::Transfer | Call::Result | Call::Margin => 0,
        }
    }

    /// The answer, the bytes written, and a request that the desk sends afterwards, by which its record shows, or a share of the server.
    fn said(&self, call: Call) -> Vec<u8> {
        let store = &self.cluster.store;
        let mut out = vec![0; ROOM];
        let mut after = vec![0; ROOM];
        let mut server = self.cluster.servers[0].clone();
        let mut desk = self.reading.clone();
        let answer = match call {
            Call::Serve => {
                let (answer, end) = store.serve(&mut server, &self.request, &mut out, 0);
                answer + end as i64
            }
            Call::ServeNewer => {
                let (answer, end) = store.serve(&mut server, &self.newer, &mut out, 0);
                answer + end as i64
            }
            Call::ServeClash => {
                server = self.misled.clone();
                store.serve(&mut server, &self.newer, &mut out, 0).0
            }
            Call::Hear => store.hear(&mut desk, &self.reply),
            Call::Ask => store.ask(&desk, 0, &mut out, 0),
            Call::Share => store.share(&server, &mut out, 0),
            Call::Transfer => store.transfer(&mut server, 1, 1),
            Call::Begin => {
                desk = self.cluster.desk.clone();
                store.begin_write(&mut desk, NOTE, &self.value)
            }
            Call::Result => {
                let told = store.result(&self.cluster.desk);
                out.extend(told.restarts.to_le_bytes());
                out.extend(told.kind.to_le_bytes());
                out.extend(told.register.stamp.to_le_bytes());
                out.extend(told.register.value.bytes);
                told.answer
            }
            Call::Margin => {
                desk = self.answered.clone();
                store.margin(&desk)
            }
        };
        out.extend(answer.to_le_bytes());
        store.ask(&desk, 1, &mut after, 0);
        out.extend(&after);
        store.share(&server, &mut after, 0);
        out.extend(&after);
        out
    }

    fn repeated(self, call: Call) -> Box<dyn FnMut(u32)> {
        let Stage {
            cluster,
            mut reading,
            answered,
            request,
            reply,
            newer,
            mut misled,
            value,
        } = self;
        let store = cluster.store;
        let mut server = cluster.servers[0].clone();
        let idle = cluster.desk;
        let mut out = [0; ROOM];
        Box::new(move |times| {
            let store = black_box(&store);
            match call {
                Call::Serve => each(times, || {
                    store.serve(
                        black_box(&mut server),
                        black_box(&request),
                        black_box(&mut out),
                        0,
                    )
                }),
                Call::ServeNewer => each(times, || {
                    let mut copy = black_box(&server).clone();
                    store.serve(
                        black_box(&mut copy),
                        black_box(&newer),
                        black_box(&mut out),
                        0,
                    )
                }),
                Call::ServeClash => each(times, || {
                    store.serve(
                        black_box(&mut misled),
                        black_box(&newer),
                        black_box(&mut out),
                        0,
                    )
                }),
                Call::Hear => each(times, || {
                    store.hear(black_box(&mut reading), black_box(&reply))
                }),
                Call::Ask => each(times, || {
                    store.ask(black_box(&reading), 0, black_box(&mut out), 0)
                }),
                Call::Share => each(times, || {
                    store.share(black_box(&server), black_box(&mut out), 0)
                }),
                Call::Transfer => each(times, || {
                    let mut copy = black_box(&server).clone();
                    store.transfer(black_box(&mut copy), black_box(1), black_box(1))
                }),
                Call::Begin => each(times, || {
                    let mut copy = black_box(&idle).clone();
                    store.begin_write(black_box(&mut copy), NOTE, black_box(&value))
                }),
                Call::Result => each(times, || store.result(black_box(&idle))),
                Call::Margin => each(times, || store.margin(black_box(&answered))),
            }
        })
    }
}

fn call_by<S: Store>(store: S, scene: &Scene, call: Call) -> Subject {
    let stage = Stage::open(store, scene);
    Subject {
        said: stage.said(call),
        repeat: stage.repeated(call),
    }
}

fn records(scene: fn() -> Scene) -> Vec<Case> {
    let stage = Stage::open(native::PLAIN, &scene());
    let beside = |name: &str, call: Call, core, plain| Case {
        name: format!("{name}, {}", scene().name),
        group: Group::Record,
        bytes: stage.bytes(call),
        by: Box::new(move |i| match i {
            0 => call_by(core, &scene(), call),
            1 => call_by(Model, &scene(), call),
            _ => call_by(plain, &scene(), call),
        }),
    };
    let case = |name: &str, call: Call, core| beside(name, call, core, native::PLAIN);
    let valued = |name: &str, call: Call| beside(name, call, native::CORE, native::VALUE);
    vec![
        case("serve", Call::Serve, native::CORE),
        case("serve, newer rows", Call::ServeNewer, native::CORE),
        case("serve, clash", Call::ServeClash, native::CORE),
        case("hear", Call::Hear, native::CORE),
        case("hear on a lent record", Call::Hear, native::LENT),
        case("ask", Call::Ask, native::CORE),
        case("share", Call::Share, native::CORE),
        case("transfer", Call::Transfer, native::CORE),
        case("begin", Call::Begin, native::CORE),
        case("result", Call::Result, native::CORE),
        case("margin", Call::Margin, native::CORE),
        valued("serve, C by value", Call::Serve),
        valued("serve, newer rows, C by value", Call::ServeNewer),
        valued("serve, clash, C by value", Call::ServeClash),
        valued("hear, C by value", Call::Hear),
        valued("transfer, C by value", Call::Transfer),
        valued("begin, C by value", Call::Begin),
    ]
}

// ---- whole operations

fn operation_by<S: Store>(store: S, scene: &Scene, write: bool) -> Subject {
    let mut cluster = Cluster::open(store, scene);
    let value = scene.value.clone();
    let once = move |cluster: &mut Cluster<S>| {
        if write {
            cluster.write(black_box(&value));
        } else {
            cluster.read();
        }
        cluster.store.result(&cluster.desk)
    };
    let told = once(&mut cluster);
    let mut said = told.register.value.bytes.to_vec();
    said.extend(told.register.stamp.to_le_bytes());
    said.extend(told.register.desk.to_le_bytes());
    said.extend(told.kind.to_le_bytes());
    said.extend(told.restarts.to_le_bytes());
    said.extend(cluster.store.round(&cluster.desk).to_le_bytes());
    Subject {
        said,
        repeat: Box::new(move |times| each(times, || once(black_box(&mut cluster)))),
    }
}

fn operations(scene: fn() -> Scene) -> Vec<Case> {
    let case = |name: &str, write, core, plain| Case {
        name: format!("{name}, {}", scene().name),
        group: Group::Operation,
        bytes: 0,
        by: Box::new(move |i| match i {
            0 => operation_by(core, &scene(), write),
            1 => operation_by(Model, &scene(), write),
            _ => operation_by(plain, &scene(), write),
        }),
    };
    let (core, lent) = (native::CORE, native::LENT);
    let (plain, value) = (native::PLAIN, native::VALUE);
    vec![
        case("write", true, core, plain),
        case("write, hear on a lent record", true, lent, plain),
        case("read", false, core, plain),
        case("read, hear on a lent record", false, lent, plain),
        case("write, C by value", true, core, value),
        case("read, C by value", false, core, value),
    ]
}
