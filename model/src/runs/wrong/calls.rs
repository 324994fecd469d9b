//! Wrong stores in which a call other than hear is exchanged.

use crate::format::Kind;
use crate::machine::calls::{Calls, Cluster};
use crate::machine::command::House;
use crate::machine::desk::{Heard, Outcome, Task};
use crate::machine::letter::Letter;
use crate::machine::number::No;
use crate::machine::server::Room;
use crate::machine::sheet::Sheet;
use crate::machine::transfers::Transfers;
use crate::misread::{AtFloor, Opens};
use crate::weights::Config;

/// A share's sheet is joined and its register is not. Requests are joined
/// whole: otherwise no write would reach a server.
pub struct SheetAlone;

impl Calls<Transfers> for SheetAlone {
    fn serve(
        &self,
        cluster: &mut Cluster<Transfers>,
        server: usize,
        letter: &Letter<Transfers>,
        room: Room,
    ) -> Result<Option<Letter<Transfers>>, No> {
        let config = cluster.config;
        let server = &mut cluster.servers[server];
        if letter.kind == Kind::Share {
            server.pair.sheet = server.pair.sheet.join(&letter.pair.sheet);
            return Ok(None);
        }
        server.serve(config, letter, room)
    }
}

/// A giver is weighed by all that anybody gave it, heard of or not.
pub struct Unheard;

impl Calls<Transfers> for Unheard {
    fn transfer(
        &self,
        cluster: &mut Cluster<Transfers>,
        giver: usize,
        taker: u64,
        amount: u64,
    ) -> Result<(), No> {
        let own = cluster.servers[giver].pair.sheet.clone();
        let sheet = cluster.servers.iter().fold(own, |sheet, other| {
            let gifts = other
                .pair
                .sheet
                .filter(|gift| usize::from(gift.taker) == giver);
            sheet.join(&gifts)
        });
        let server = &mut cluster.servers[giver];
        server.may_transfer(cluster.config, &sheet, taker, amount)?;
        server.pair.sheet.add(giver, taker as usize, amount as u32);
        Ok(())
    }
}

/// Every call of a desk is refused, as busy.
pub struct RefusesAll;

impl Calls<Transfers> for RefusesAll {
    fn begin(&self, _: &mut Cluster<Transfers>, _: u16, _: Task, _: u32) -> Result<(), No> {
        Err(No::BUSY)
    }

    fn ask(
        &self,
        _: &mut Cluster<Transfers>,
        _: u16,
        _: u64,
        _: Room,
    ) -> Result<Letter<Transfers>, No> {
        Err(No::BUSY)
    }

    fn hear(&self, _: &mut Cluster<Transfers>, _: u16, _: &Letter<Transfers>) -> Result<Heard, No> {
        Err(No::BUSY)
    }

    fn result(&self, _: &mut Cluster<Transfers>, _: u16) -> Result<Outcome, No> {
        Err(No::BUSY)
    }

    fn drop(&self, _: &mut Cluster<Transfers>, _: u16) -> Result<(), No> {
        Err(No::BUSY)
    }

    fn margin(&self, _: &mut Cluster<Transfers>, _: u16) -> Result<i64, No> {
        Err(No::BUSY)
    }
}

/// A desk begins nothing from some round on.
pub struct SpentEarly;

const EARLY_LIMIT: u32 = 8;

impl Calls<Transfers> for SpentEarly {
    fn begin(
        &self,
        cluster: &mut Cluster<Transfers>,
        desk: u16,
        task: Task,
        note: u32,
    ) -> Result<(), No> {
        let desk = cluster.desk(desk);
        let mut after = desk.clone();
        after.begin(task, note)?;
        if desk.round >= EARLY_LIMIT {
            return Err(No::SPENT);
        }
        *desk = after;
        Ok(())
    }
}

/// Results without their restarts.
pub struct NoRestarts;

impl Calls<Transfers> for NoRestarts {
    fn result(&self, cluster: &mut Cluster<Transfers>, desk: u16) -> Result<Outcome, No> {
        let outcome = cluster.desk(desk).result()?;
        Ok(Outcome {
            restarts: 0,
            ..outcome
        })
    }
}

/// A house is opened also where a start weight is exactly at the floor.
pub struct OpensAtFloor;

impl Calls<Transfers> for OpensAtFloor {
    fn open(&self, house: &House) -> Result<Config, No> {
        let opened = AtFloor::open(house.n, house.f, &house.starts());
        opened.map_err(|place| No(place.number()))
    }
}

/// The floor of a transfer is that of servers that start level.
pub struct LevelFloor;

impl Calls<Transfers> for LevelFloor {
    fn transfer(
        &self,
        cluster: &mut Cluster<Transfers>,
        giver: usize,
        taker: u64,
        amount: u64,
    ) -> Result<(), No> {
        let config = cluster.config;
        let server = &mut cluster.servers[giver];
        let sheet = &server.pair.sheet;
        match server.may_transfer(config, sheet, taker, amount) {
            Ok(()) | Err(No::THIN) => {}
            refused => return refused,
        }
        let rest = i128::from(sheet.weight(config, giver)) - i128::from(amount);
        let level = Config::level(config.n() as u64, config.f() as u64);
        if rest <= 0 || !level.above_floor(rest as i64) {
            return Err(No::THIN);
        }
        server.pair.sheet.add(giver, taker as usize, amount as u32);
        Ok(())
    }
}
