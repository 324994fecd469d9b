//! The answer to a test vector, all that reader and writer make of a message:
//! docs/SCRIPTS.md, "Test vectors".

use super::command::hex;
use super::number::No;
use crate::answers::open;
use crate::format::{read, Register};
use crate::place::Place;
use crate::write::write;

/// The fields, the weights, and what the message comes to cut short, made
/// longer and written again; or the number that refuses it.
pub fn vector(n: u64, f: u64, starts: &[u64], bytes: &[u8]) -> Result<String, No> {
    let (config, message) = open(n, f, starts, bytes).map_err(|fault| No(fault.number))?;
    let Register { stamp, desk, value } = message.register.unwrap_or(Register {
        stamp: 0,
        desk: 0,
        value: &[],
    });
    let weights = message.ledger.weights(config)[..config.n()]
        .iter()
        .map(|weight| format!(" {weight}"))
        .collect::<String>();
    let number = |bytes: &[u8]| read(config, bytes).map_or_else(|fault| fault.number, |_| 0);
    let torn = |end: &usize| number(&bytes[..*end]) == Place::TornMap.number();
    let cut = (0..bytes.len()).filter(torn).count();
    let longer = number(&[bytes, &[0]].concat());
    let again = if write(&message) == bytes {
        "same"
    } else {
        "other"
    };
    Ok(format!(
        "ok kind {} server {} desk {} round {} tag {stamp} {desk} note {} value {} \
         weights{weights} cut {cut} of {} longer {longer} again {again}",
        message.kind as u8,
        message.server,
        message.desk.unwrap_or(0),
        message.round.unwrap_or(0),
        message.note.unwrap_or(0),
        hex(value),
        bytes.len(),
    ))
}
