//! A cluster with weight moved and a value written, and what a host does for a whole operation: the same for each implementation.

use crate::messages::block;
use crate::store::Store;
use model::weights::Config;

/// Room for any message.
pub const ROOM: usize = 1111;

/// The number of the one desk, and the note of its operations.
pub const DESK: u64 = 7;
pub const NOTE: u32 = 0x5EA7_0001;

/// How many servers there are, which all start at 1,000, what they gave each other, and the value that is written.
pub struct Scene {
    pub name: &'static str,
    pub n: u64,
    pub f: u64,
    /// Giver, taker, amount.
    gifts: Vec<(usize, u64, u64)>,
    pub value: Vec<u8>,
}

/// Five servers, of which one may crash; three transfers; a value of 20 bytes. No server alone is a quorum.
pub fn small() -> Scene {
    Scene {
        name: "n = 5",
        n: 5,
        f: 1,
        gifts: vec![(0, 2, 200), (1, 2, 50), (3, 4, 10)],
        value: block(20),
    }
}

/// Sixteen servers, of which seven may crash; each gave 1 to every other one, so that all 240 cells stand; a value of 64 bytes. Every server weighs
/// 1,000.
pub fn full() -> Scene {
    let pairs = (0..16).flat_map(|giver| (0..16).map(move |taker| (giver, taker)));
    Scene {
        name: "n = 16, full ledger",
        n: 16,
        f: 7,
        gifts: pairs
            .filter(|&(giver, taker)| giver as u64 != taker)
            .map(|(giver, taker)| (giver, taker, 1))
            .collect(),
        value: block(64),
    }
}

/// The servers and the desk of one implementation, and the buffers that its host keeps.
#[derive(Clone)]
pub struct Cluster<S: Store> {
    pub store: S,
    pub servers: Vec<S::Server>,
    pub desk: S::Desk,
    request: [u8; ROOM],
    replies: Vec<[u8; ROOM]>,
    lengths: Vec<usize>,
}

impl<S: Store> Cluster<S> {
    /// The gifts are made and told to all servers, and the value is written.
    pub fn open(store: S, scene: &Scene) -> Cluster<S> {
        let config = Config::level(scene.n, scene.f);
        let opened = (0..scene.n).map(|i| store.open_server(config, i));
        let mut servers: Vec<S::Server> = opened.collect();
        for &(giver, taker, amount) in &scene.gifts {
            accepted(store.transfer(&mut servers[giver], taker, amount));
        }
        let mut share = [0; ROOM];
        for sender in 0..servers.len() {
            let end = written(store.share(&servers[sender], &mut share, 0));
            for server in &mut servers {
                accepted(store.serve(server, &share[..end], &mut [], 0).0);
            }
        }
        let mut cluster = Cluster {
            desk: store.open_desk(config, DESK),
            request: [0; ROOM],
            replies: vec![[0; ROOM]; servers.len()],
            lengths: vec![0; servers.len()],
            servers,
            store,
        };
        cluster.write(&scene.value);
        cluster
    }

    pub fn write(&mut self, value: &[u8]) {
        accepted(self.store.begin_write(&mut self.desk, NOTE, value));
        self.operate();
    }

    pub fn read(&mut self) {
        accepted(self.store.begin_read(&mut self.desk, NOTE));
        self.operate();
    }

    /// Round by round every server is asked and serves; then the replies are heard until the round or the operation ends. The rest of them is lost.
    fn operate(&mut self) {
        let store = &self.store;
        while !store.ended(&self.desk) {
            for (i, server) in self.servers.iter_mut().enumerate() {
                let end = written(store.ask(&self.desk, i as u64, &mut self.request, 0));
                let reply = &mut self.replies[i];
                let (answer, end) = store.serve(server, &self.request[..end], reply, 0);
                accepted(answer);
                self.lengths[i] = end;
            }
            let round = store.round(&self.desk);
            for (reply, &end) in self.replies.iter().zip(&self.lengths) {
                if store.round(&self.desk) != round || store.ended(&self.desk) {
                    break;
                }
                accepted(store.hear(&mut self.desk, &reply[..end]));
            }
        }
    }
}

pub fn accepted(answer: i64) {
    assert_eq!(answer, 0, "the call is accepted");
}

/// The place after a message that was written.
pub fn written(answer: i64) -> usize {
    usize::try_from(answer).expect("the message is written")
}
