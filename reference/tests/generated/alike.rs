//! 01, demand 3, run: two drives of one reading and of two pasts are given one further list.

use crate::answers;
use crate::scripts::{calls, carry_out, Call};
use reference::generate::script;
use reference::memory::{Drive, INPUT_NAMES};
use reference::reading::{reading, requests};

const SCRIPTS: u64 = 1_200;

/// A string of address 00, which must be answered Y.
fn say(drive: &mut Drive, text: &str) {
    let mut buffer = [0; 64];
    let length = drive.string(format!("00{text}\r").as_bytes(), &mut buffer);
    assert_eq!((length, &buffer[..4]), (Ok(Some(4)), &b"00Y\r"[..]), "{text}");
}

/// A fresh drive brought to the same reading by strings and inputs words. None where the past left
/// an error or an interrupted program, which no string writes.
fn by_strings(drive: &Drive) -> Option<Drive> {
    let answers = answers(drive, &requests(drive.presets.address));
    if !answers.contains(&"QE,00,000".to_string()) || !answers.contains(&"QR,000".to_string()) {
        return None;
    }
    let mut made = Drive::fresh(0).expect("01 takes address 0");
    let mut word = 0;
    let mut address = String::new();
    for answer in &answers {
        let (code, rest) = answer.split_at(2);
        match code {
            "QM" => say(&mut made, &format!("WN{rest}")),
            "QS" if rest.starts_with(",AD,") => address = format!("WS{rest}"),
            "QS" => say(&mut made, &format!("WS{rest}")),
            "QA" => say(&mut made, &format!("SA{rest}")),
            "QO" if rest.starts_with(",CU,") => current(&mut made, &rest[4..]),
            "QO" => say(&mut made, &format!("SO{rest}")),
            "QI" => word |= input(rest),
            "QC" => say(&mut made, &format!("SC{rest}")),
            _ => {}
        }
    }
    // ST comes on under EE, so that it starts nothing.
    made.inputs(word | 1 << 10).expect("a word of 11 bits");
    made.inputs(word).expect("a word of 11 bits");
    say(&mut made, &address);
    Some(made)
}

/// Sets CU by a program in a cell that gets its own content back.
fn current(drive: &mut Drive, level: &str) {
    let kept = answers(drive, &requests(0)[..1])[0].replacen("QM", "WN", 1);
    say(drive, &format!("WN,100,70,{level},000"));
    say(drive, "PS,100");
    drive.millisecond().expect("sound");
    say(drive, &kept);
}

/// The bit of an input that is shown on.
fn input(rest: &str) -> u32 {
    let (name, level) = rest[1..].split_once(',').expect("a name and a level");
    let place = INPUT_NAMES.iter().position(|input| *input == name).expect("an input");
    u32::from(level == "1") << place
}

/// A further list: another script's calls that keep the drive, its strings at this address.
fn further(seed: u64, address: u8) -> Vec<Call> {
    let mut list = calls(&script(1_000_000 + seed, 80));
    list.retain(|call| !matches!(call, Call::Fresh(_) | Call::Raw(_) | Call::Load(_)));
    for call in &mut list {
        if let Call::String { bytes, .. } = call {
            if bytes.len() > 2 && !bytes.starts_with(b"99") {
                bytes[..2].copy_from_slice(format!("{address:02}").as_bytes());
            }
        }
    }
    list
}

/// 01: "at each call these are equal: refusal number or none, answer bytes .., of a wait which end
/// and how many, and afterwards the order and the outputs".
fn alike(one: &mut Drive, other: &mut Drive, call: &Call) {
    if let Call::Wait(budget) = call {
        meanwhile(*one, *other, *budget);
    }
    assert_eq!(carry_out(one, call), carry_out(other, call), "{call:?}");
    assert_eq!((one.order(), one.outputs), (other.order(), other.outputs), "{call:?}");
}

/// 01: "In a wait, the order and the outputs must also be equal after each of its milliseconds."
fn meanwhile(mut one: Drive, mut other: Drive, budget: u32) {
    let mut ahead = one;
    let given = ahead.wait(budget).map_or(0, |(_, given)| given);
    for _ in 0..given {
        one.millisecond().expect("sound");
        other.millisecond().expect("sound");
        assert_eq!((one.order(), one.outputs), (other.order(), other.outputs));
    }
}

/// The last idle drive that a script's calls lead to, and that strings alone can lead to.
fn reached(seed: u64) -> Option<(Drive, Drive)> {
    let mut drive = Drive::fresh(0).expect("01 takes address 0");
    let mut found = None;
    let list = calls(&script(seed, 150));
    for call in list.iter().filter(|call| !matches!(call, Call::Raw(_))) {
        carry_out(&mut drive, call);
        if drive.idle() {
            found = Some(drive);
        }
    }
    found.and_then(|drive| by_strings(&drive).map(|made| (drive, made)))
}

#[test]
fn two_pasts_of_one_reading_act_alike() {
    let (mut pairs, mut runs) = (0, 0);
    for seed in 0..SCRIPTS {
        let Some((mut one, mut other)) = reached(seed) else { continue };
        assert_eq!(reading(&mut one), reading(&mut other));
        pairs += 1;
        for call in further(seed, one.presets.address) {
            alike(&mut one, &mut other, &call);
            runs += usize::from(one.moving());
        }
    }
    assert!(pairs > 300 && runs > 3_000, "{pairs} pairs, {runs} calls that left a run under way");
}
