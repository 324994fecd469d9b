//! A store as a row of calls on a cluster, as paper 01, "The runs of demand 3"
//! names its steps. The defaults are the right ones; a wrong store exchanges
//! one and shares the rest.

use std::collections::BTreeMap;

use super::command::House;
use super::desk::{Desk, Heard, Outcome, Task};
use super::letter::Letter;
use super::number::No;
use super::server::{Room, Server};
use super::sheet::Sheet;
use crate::weights::Config;

/// All servers and the desks that were named so far.
#[derive(Clone, Debug)]
pub struct Cluster<S> {
    pub config: Config,
    pub servers: Vec<Server<S>>,
    pub crashed: Vec<bool>,
    pub desks: BTreeMap<u16, Desk<S>>,
}

impl<S: Sheet> Cluster<S> {
    pub fn fresh(config: Config) -> Cluster<S> {
        Cluster {
            config,
            servers: (0..config.n()).map(Server::fresh).collect(),
            crashed: vec![false; config.n()],
            desks: BTreeMap::new(),
        }
    }

    /// The desk of a number, opened if it was not named before.
    pub fn desk(&mut self, number: u16) -> &mut Desk<S> {
        self.desks
            .entry(number)
            .or_insert_with(|| Desk::fresh(number))
    }
}

/// The calls of a store. Servers are below n, desks are numbers that a desk has.
pub trait Calls<S: Sheet> {
    /// The cluster that all parties are opened with.
    fn open(&self, house: &House) -> Result<Config, No> {
        house.config().map_err(|place| No(place.number()))
    }

    fn transfer(
        &self,
        cluster: &mut Cluster<S>,
        giver: usize,
        taker: u64,
        amount: u64,
    ) -> Result<(), No> {
        cluster.servers[giver].transfer(cluster.config, taker, amount)
    }

    fn share(&self, cluster: &mut Cluster<S>, server: usize, room: Room) -> Result<Letter<S>, No> {
        cluster.servers[server].share(room)
    }

    fn serve(
        &self,
        cluster: &mut Cluster<S>,
        server: usize,
        letter: &Letter<S>,
        room: Room,
    ) -> Result<Option<Letter<S>>, No> {
        cluster.servers[server].serve(cluster.config, letter, room)
    }

    fn begin(&self, cluster: &mut Cluster<S>, desk: u16, task: Task, note: u32) -> Result<(), No> {
        cluster.desk(desk).begin(task, note)
    }

    fn ask(
        &self,
        cluster: &mut Cluster<S>,
        desk: u16,
        server: u64,
        room: Room,
    ) -> Result<Letter<S>, No> {
        let config = cluster.config;
        cluster.desk(desk).ask(config, server, room)
    }

    fn hear(&self, cluster: &mut Cluster<S>, desk: u16, letter: &Letter<S>) -> Result<Heard, No> {
        let config = cluster.config;
        cluster.desk(desk).hear(config, letter)
    }

    fn result(&self, cluster: &mut Cluster<S>, desk: u16) -> Result<Outcome, No> {
        cluster.desk(desk).result()
    }

    fn drop(&self, cluster: &mut Cluster<S>, desk: u16) -> Result<(), No> {
        cluster.desk(desk).drop()
    }

    /// No step: a question that changes nothing.
    fn margin(&self, cluster: &mut Cluster<S>, desk: u16) -> Result<i64, No> {
        let config = cluster.config;
        cluster.desk(desk).margin(config)
    }
}

/// The store that was asked for.
#[derive(Clone, Copy, Debug)]
pub struct Right;

impl<S: Sheet> Calls<S> for Right {}
