//! A travel is so many steps: until they are given, the run is over, the present cell is another or
//! an output has changed.

use crate::notation::list;
use crate::scripts::{calls, walk, Moment};
use crate::{seen, travel_word};
use reference::generate::script;
use reference::memory::Drive;

/// The steps that a travel gives.
fn travelled(drive: &mut Drive, most: u32) -> u32 {
    let bytes = seen(drive, &travel_word(most));
    assert_eq!((bytes.len(), bytes[0]), (5, 0));
    u32::from_le_bytes(bytes[1..].try_into().expect("four bytes"))
}

/// The same by public steps: the least count after which something ends the travel.
fn stepped(drive: &mut Drive, most: u32) -> u32 {
    let begin = *drive;
    let over = |drive: &Drive| {
        !drive.moving()
            || drive.running.cell != begin.running.cell
            || drive.outputs != begin.outputs
    };
    let mut given = 0;
    while given < most && !over(drive) {
        assert_eq!(drive.step(), Ok(()));
        given += 1;
    }
    given
}

/// A travel gives so many steps, and they are those of `stepped`.
fn gives(drive: &mut Drive, most: u32, given: u32) {
    let mut one_by_one = *drive;
    assert_eq!(stepped(&mut one_by_one, most), given);
    assert_eq!(travelled(drive, most), given);
    assert_eq!(*drive, one_by_one);
}

#[test]
fn it_ends_when_all_are_given() {
    let mut drive = list("s 00WN,100,12,05,-,x1,000; s 00PS,100; M");
    gives(&mut drive, 1_000, 1_000);
    gives(&mut drive, 0, 0);
    assert_eq!(drive.position, -1_000);
}

#[test]
fn it_ends_with_the_run_and_the_program() {
    let mut drive = list("s 00WN,100,11,05,+7,x1,000; s 00PS,100; M");
    gives(&mut drive, 100, 7);
    assert!(drive.idle());
    gives(&mut drive, 100, 0);
}

#[test]
fn it_ends_at_another_cell() {
    let mut drive = list("s 00WN,100,11,05,+7,x1,101; s 00WN,101,11,05,+9,x1,000; s 00PS,100; M");
    gives(&mut drive, u32::MAX, 7);
    assert_eq!(drive.running.cell, 101);
    gives(&mut drive, u32::MAX, 0);
}

#[test]
fn it_ends_with_the_run_of_a_cell_that_is_its_own_next() {
    let mut drive = list("s 00WN,100,11,05,+7,x1,100; s 00PS,100; M");
    gives(&mut drive, 7, 7);
    assert_eq!((drive.running.cell, drive.moving()), (100, false));
    drive = list("s 00WN,100,11,05,+7,x1,100; s 00PS,100; M");
    gives(&mut drive, 8, 7);
}

// 01: "If the cam is set and the new position equals its own, O3 is complemented"
#[test]
fn it_ends_where_the_cam_changes_o3() {
    let mut drive = list("s 00SC,1,+4; s 00WN,100,11,05,+7,x1,000; s 00PS,100; M");
    gives(&mut drive, 100, 4);
    assert!(drive.outputs.o[3] && drive.moving());
    gives(&mut drive, 100, 3);
}

#[test]
fn it_ends_where_an_emergency_slowing_arrives() {
    let mut drive = list("s 00WN,100,01,10,20,+7,x1,101; s 00PS,100; M; s 00EE");
    gives(&mut drive, 100, 7);
    assert!(drive.idle());
}

#[test]
fn a_waiting_or_delaying_drive_gets_no_step() {
    gives(&mut list("s 00WN,100,65,9,000; s 00PS,100"), 9, 0);
    gives(&mut list("s 00WN,100,65,9,000; s 00PS,100; M"), 9, 0);
}

// Every drive that generated scripts meet.
#[test]
fn a_travel_is_that_many_steps() {
    let mut moving = 0;
    let scripts: Vec<_> = (0..300).map(|seed| calls(&script(seed, 200))).collect();
    walk(&scripts, |Moment { call, before, after, seen }| {
        if !after.sound() {
            return;
        }
        for most in [1, 3, 40] {
            let (mut drive, mut one_by_one) = (*after, *after);
            let given = stepped(&mut one_by_one, most);
            let came_by = || format!("{call:?} on {before:?}, which showed {seen:?}");
            assert_eq!(travelled(&mut drive, most), given, "{}", came_by());
            assert_eq!(drive, one_by_one, "{}", came_by());
            moving += usize::from(given > 0);
        }
    });
    assert!(moving > 20_000, "{moving} travels");
}
