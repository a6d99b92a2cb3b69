//! Reading and writing, string by string and list by list, in every room.

use inputs::aimed::edges::numbers_of_every_width;
use inputs::bytes::{BYTES_AIMS, any_bytes, encode};
use inputs::damage::{any_list, damage_list};
use inputs::{Refused, Rng, generate};

use crate::beside::{Beside, Difference};

const NO_BYTES: Refused = Refused {
    number: 4,
    step: 0,
    place: 0,
};

/// One string read and two lists written, in each room from 0 to more than needed.
pub fn round(beside: &mut Beside, seed: u64) -> Result<(), Difference> {
    beside.begin(seed);
    let mut rng = Rng::new(seed);
    let bytes = any_bytes(&mut rng);
    beside.input = "bytes of any sort";
    // A number takes a byte at least.
    for room in 0..=bytes.len() + 1 {
        beside.read(&bytes, room)?;
    }
    let list = any_list(&mut rng, 4);
    beside.input = "numbers of any size";
    write_in_every_room(beside, &list)?;
    let edges = numbers_of_every_width();
    beside.input = "a number at the edge of a width";
    write_in_every_room(beside, &[edges[seed as usize % edges.len()]])?;
    beside.tally.strings_and_lists += 2; // the edges come round again and do not count
    for (name, aim) in BYTES_AIMS {
        if let Some(aimed) = aim(&mut rng, &list) {
            beside.input = name;
            let reply = beside.read(&aimed.bytes, aimed.room)?;
            reply.expect(aimed.expect, name)?;
            beside.tally.aim(name);
            beside.tally.strings_and_lists += 1;
        }
    }
    Ok(())
}

/// The lists of an accepted pair, undamaged and damaged, each written in every room.
pub fn lists_round(beside: &mut Beside, seed: u64) -> Result<(), Difference> {
    beside.begin(seed);
    let mut rng = Rng::new(seed);
    let pair = generate::accepted(&mut rng);
    for mut list in [pair.case.list(), pair.plan.list()] {
        beside.input = "a list of an accepted pair";
        write_in_every_room(beside, &list)?;
        damage_list(&mut rng, &mut list);
        beside.input = "a damaged list";
        write_in_every_room(beside, &list)?;
    }
    Ok(())
}

/// Writes the list in each room from 0 to two bytes more than it needs.
pub fn write_in_every_room(beside: &mut Beside, list: &[i64]) -> Result<(), Difference> {
    let encoded = encode(list).bytes;
    let needed = encoded.len();
    for room in 0..=needed + 2 {
        let reply = beside.write(list, room)?;
        if room < needed {
            reply.expect(NO_BYTES, "4 too few bytes")?;
        } else if (reply.answer, reply.out[0]) != (0, needed as i64) {
            let text = format!("{list:?} takes {needed} bytes, the second checker says {reply:?}");
            return Err(Difference { text });
        }
    }
    there_and_back(beside, list, &encoded)
}

/// What was written is what the inputs' own encoding says, and reads back as the list.
fn there_and_back(beside: &mut Beside, list: &[i64], encoded: &[u8]) -> Result<(), Difference> {
    let mut bytes = vec![0; encoded.len()];
    let mut back = vec![0; list.len()];
    let written = second::codec::write(list, &mut bytes);
    let read = second::codec::read(&bytes, &mut back);
    beside.read(encoded, list.len())?;
    if written == Ok(encoded.len()) && bytes == encoded && read == Ok(list.len()) && back == list {
        return Ok(());
    }
    let text = format!("{list:?} is written as {bytes:02X?} and read back as {back:?}");
    Err(Difference { text })
}
