//! 02, Slip 1, over the drives of generated scripts: what an image keeps, and what it doesn't.

use crate::images::judged;
use crate::scripts::{walk, Call};
use crate::{generated, idle_drives};
use reference::image::LONGEST;
use reference::memory::Drive;

fn image(drive: &Drive) -> Vec<u8> {
    let mut buffer = [0; LONGEST];
    let length = drive.image(&mut buffer).expect("a sound drive");
    buffer[..length].to_vec()
}

/// A fresh drive with the presets and the cells 100 to 227 of another.
fn filled(drive: &Drive) -> Drive {
    let mut fresh = Drive::fresh(0).expect("01 takes address 0");
    fresh.presets = drive.presets;
    fresh.cells[..128].copy_from_slice(&drive.cells[..128]);
    fresh
}

// 02: "Reading gives a fresh drive so filled. Cells 228 to 230 aren't kept and are Null after
// reading."; "Writing then reading gives back the presets and the cells 100 to 227"
#[test]
fn an_image_gives_back_presets_and_cells_and_nothing_else() {
    let mut seen = 0;
    walk(generated(), |moment| {
        seen += 1;
        if moment.after.sound() && seen % 5 == 0 {
            let image = image(moment.after);
            let loaded = Drive::load(&image).expect("the writer's own bytes");
            assert_eq!(loaded, filled(moment.after));
            assert!(loaded.sound());
        }
    });
}

// 02: "equal bytes mean that these are equal"
#[test]
fn equal_images_mean_equal_presets_and_cells() {
    let mut last = Drive::fresh(0).expect("01 takes address 0");
    let (mut equal, mut different) = (0, 0);
    idle_drives(7, |_, drive| {
        let alike = filled(&last) == filled(drive);
        assert_eq!(image(&last) == image(drive), alike);
        equal += usize::from(alike);
        different += usize::from(!alike);
        last = *drive;
    });
    assert!(equal > 1_000 && different > 1_000, "{equal} pairs alike, {different} not");
}

// 02: "10, the only refusal of reading, bytes that the writer makes for no drive"
#[test]
fn what_is_read_is_written_again_byte_for_byte() {
    walk(generated(), |moment| {
        let Call::Load(bytes) = moment.call else { return };
        match moment.seen.refusal {
            None => assert_eq!(image(moment.after), *bytes),
            Some(refusal) => assert_eq!(refusal, 10),
        }
        assert_eq!(judged(bytes).err().is_some(), moment.seen.refusal.is_some());
    });
}

// 02: "The writer tells the image's length and leaves later bytes as they are."
#[test]
fn a_buffer_keeps_every_byte_behind_the_image() {
    walk(generated(), |moment| {
        if let Call::Image { length, fill } = moment.call {
            assert_eq!(moment.before, moment.after);
            assert_eq!(moment.seen.buffer.len(), *length);
            let written = moment.seen.answer.unwrap_or(0);
            assert!(moment.seen.buffer[written..].iter().all(|byte| byte == fill));
        }
    });
}
