//! The bytes that the calls are timed on.

/// Paper 01's own share: server 0 of 5, after giving 200 to server 2.
pub const SHARE: [u8; 14] = [
    0x00, 0x23, 0x03, 0x00, 0x00, 0x01, 0x00, 0x01, 0x00, 0x04, 0x00, 0x00, 0x00, 0xC8,
];

/// One giver's row: the count of its transfers, and what it gave to whom, takers upward.
struct Row {
    giver: u16,
    count: u16,
    cells: Vec<(u16, u32)>,
}

/// A reply with every field of the table: desk 7, round 9, stamp 12, a note.
fn reply(server: u8, value: &[u8], rows: &[Row]) -> Vec<u8> {
    let mut bytes = Vec::new();
    bytes.extend(0x007F_u16.to_be_bytes());
    bytes.extend([2, server]);
    bytes.extend(7_u16.to_be_bytes());
    bytes.extend(9_u32.to_be_bytes());

    bytes.extend(12_u32.to_be_bytes());
    bytes.extend(3_u16.to_be_bytes());
    bytes.push(u8::try_from(value.len()).expect("a value has at most 64 bytes"));
    bytes.extend(value);

    bytes.extend(
        rows.iter()
            .fold(0, |map, row| map | 1_u16 << row.giver)
            .to_be_bytes(),
    );
    for row in rows {
        bytes.extend(row.count.to_be_bytes());
        bytes.extend(
            row.cells
                .iter()
                .fold(0, |map, (taker, _)| map | 1_u16 << taker)
                .to_be_bytes(),
        );
        for (_, given) in &row.cells {
            bytes.extend(given.to_be_bytes());
        }
    }

    bytes.extend(0x5EA7_0001_u32.to_be_bytes());
    bytes
}

/// A reply in a cluster of 5 servers with f = 1: a value of 20 bytes, and five rows of two or three cells. The weights are 930, 1,090, 1,040, 900 and 1,040;
/// each has to be above 625.
pub fn middle() -> Vec<u8> {
    let rows = [
        Row {
            giver: 0,
            count: 4,
            cells: vec![(1, 120), (2, 90)],
        },
        Row {
            giver: 1,
            count: 3,
            cells: vec![(0, 60), (2, 30), (4, 70)],
        },
        Row {
            giver: 2,
            count: 2,
            cells: vec![(1, 50), (3, 80)],
        },
        Row {
            giver: 3,
            count: 5,
            cells: vec![(0, 80), (1, 40), (4, 60)],
        },
        Row {
            giver: 4,
            count: 2,
            cells: vec![(1, 40), (2, 50)],
        },
    ];
    reply(4, &block(20), &rows)
}

/// The longest message there is, 1,111 bytes, in a cluster of 16 with f = 7: every field, 64 bytes of value, every row and every cell. Two servers gave
/// each other the same, but each gave some more to the next one, so that the weights are 1,015 for server 0 and 999 for the others;
/// each has to be above 888.
pub fn longest() -> Vec<u8> {
    let rows: Vec<Row> = (0..16)
        .map(|giver: u16| {
            let given = |taker: u16| {
                let more = if taker == (giver + 1) % 16 { giver } else { 0 };
                1000 + 10 * u32::from(giver + taker) + u32::from(more)
            };
            let cells = (0..16)
                .filter(|taker| *taker != giver)
                .map(|taker| (taker, given(taker)))
                .collect();
            Row {
                giver,
                count: 40,
                cells,
            }
        })
        .collect();
    reply(15, &block(64), &rows)
}

/// The middle message, cut in its middle: torn within the second row.
pub fn cut() -> Vec<u8> {
    let mut bytes = middle();
    bytes.truncate(bytes.len() / 2);
    bytes
}

/// A block of seats of which some are sold here and there.
pub fn block(len: u8) -> Vec<u8> {
    (0..len).map(|i| i.wrapping_mul(73) ^ 0xA0).collect()
}
