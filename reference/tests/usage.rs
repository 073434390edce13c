//! 02, Slip 5: a map of used cells. Worked lists of WN strings, each sentence and each reading by
//! its own; every string is also given to a drive without a map, and after each the map is counted
//! anew in another way. Random lists are in `usage/random.rs`; random drives are looked at in
//! `generated/mapped.rs`.

#[path = "usage/kept.rs"]
mod kept;
#[path = "usage/random.rs"]
mod random;
#[path = "common/reached.rs"]
mod reached;
#[path = "usage/untouched.rs"]
mod untouched;

use kept::{shows, written, Kept};
use reference::instruction::CONDITIONS;

/// The WNs of cells that each lead to the one behind it, and the last to another.
fn chain(cells: &[u8], last: u8) -> String {
    let nexts = cells[1..].iter().chain([&last]);
    let texts = cells.iter().zip(nexts).map(|(cell, next)| format!("{cell},00,{next:03}"));
    texts.collect::<Vec<_>>().join(" ")
}

// ---- what is reached

// 02: "from cells 100 to 115 .., these 16 included"
#[test]
fn a_fresh_drive_uses_its_first_16_cells() {
    assert_eq!(Kept::fresh().shown(), "");
    assert!(!Kept::fresh().used.has(116));
}

#[test]
fn a_chain_upward_is_used_to_its_end() {
    shows("100,00,116 116,00,117 117,65,5,118 118,00,000", "116-118");
    let up: Vec<u8> = (116..=230).collect();
    shows(&format!("100,00,116 {}", chain(&up, 0)), "116-230");
    shows(&format!("{} 100,00,116", chain(&up, 0)), "116-230");
    shows(&format!("{} 100,00,200", chain(&up, 0)), "200-230");
}

#[test]
fn a_chain_downward_is_used_to_its_end() {
    shows("100,00,118 118,00,117 117,65,5,116", "116-118");
    let down: Vec<u8> = (116..=230).rev().collect();
    shows(&format!("100,00,230 {}", chain(&down, 0)), "116-230");
    shows(&format!("{} 100,00,230", chain(&down, 0)), "116-230");
    shows(&format!("{} 100,00,130", chain(&down, 0)), "116-130");
}

// Steps of 37 places among 115 cells meet every cell once.
#[test]
fn a_chain_in_no_order_is_used_to_its_end() {
    let cells: Vec<u8> = (0..115).map(|step| 116 + (step * 37 % 115) as u8).collect();
    shows(&format!("{} 115,00,116", chain(&cells, 0)), "116-230");
    shows(&format!("115,00,116 {}", chain(&cells, 0)), "116-230");
    let back: Vec<u8> = cells.into_iter().rev().collect();
    shows(&format!("115,00,{} {}", back[0], chain(&back, 0)), "116-230");
}

// 02: "through DDD and EEE". Every code but the 69 has a DDD.
#[test]
fn every_code_leads_to_its_ddd() {
    for text in [
        "00",
        "01,10,20,+5,x1",
        "02,10,20,+,x1",
        "03,10,20,+,05",
        "05,10,20,+,300,x4",
        "11,05,+116,x1",
        "12,05,-,x1",
        "21,2181,-117,x4",
        "22,2181,+,x4",
        "31,100,20,+1,x1",
        "32,100,20,-,x1",
        "57,1,+118",
        "58,F7,1",
        "60",
        "61,120",
        "65,119",
        "70,1",
    ] {
        shows(&format!("100,{text},130"), "130");
        shows(&format!("100,{text},000"), "");
        shows(&format!("100,00,140 140,{text},130"), "130 140");
    }
}

#[test]
fn a_62_leads_to_its_ddd_and_its_eee() {
    shows("100,62,120,130", "120 130");
    shows("100,62,120,000", "120");
    shows("100,62,120,120", "120");
    shows("100,62,100,130", "130");
    shows("100,62,120,130 120,62,140,150", "120 130 140 150");
}

// The way counts whatever V is and whether or not the input is on.
#[test]
fn a_63_leads_to_its_ddd_and_its_eee() {
    for input in CONDITIONS {
        for v in [0, 1] {
            shows(&format!("100,63,{input},{v},120,130"), "120 130");
        }
    }
    shows("100,63,I0,0,120,000", "120");
    shows("100,63,I0,0,100,120", "120");
    shows("100,63,I0,1,120,120", "120");
}

#[test]
fn inputs_flags_and_loop_counts_do_not_enter() {
    let mut kept = written("100,63,I0,1,120,130 120,63,F0,0,140,150 101,61,1,102 102,62,160,170");
    for word in [0, 1, 2047] {
        kept.drive.inputs(word).unwrap();
        kept.tell("00SO,F0,1");
        kept.write("130,00,000");
        assert_eq!(kept.shown(), "120 130 140 150 160 170");
    }
}

#[test]
fn a_69_leads_nowhere() {
    shows("100,69", "");
    shows("100,00,120 120,69", "120");
    shows("100,00,120 120,62,121,122 120,69", "120");
    shows("100,69 100,62,121,122", "121-122");
}

// 02: "from cells 100 to 115"
#[test]
fn cell_115_is_used_as_it_is_and_116_only_if_reached() {
    shows("115,00,116", "116");
    shows("116,00,117", "");
    shows("116,00,115", "");
    shows("116,00,117 115,00,116", "116-117");
    shows("115,00,116 116,00,117 115,00,000", "");
}

#[test]
fn the_first_16_are_used_whatever_leads_to_them() {
    for cell in 100..=115 {
        shows(&format!("{cell},69"), "");
        shows(&format!("{cell},00,000"), "");
        shows(&format!("{cell},00,{cell}"), "");
        shows(&format!("{cell},62,100,115 {cell},69"), "");
        shows(&format!("{cell},00,200 {cell},00,000"), "");
    }
}

#[test]
fn cells_228_to_230_can_be_used() {
    shows("100,00,228 228,00,229 229,62,230,000", "228-230");
    shows("100,00,230 230,00,229 229,00,228 228,00,230", "228-230");
    shows("100,00,228 228,00,229 229,62,230,000 229,69", "228-229");
    shows("100,00,227 227,00,228", "227-228");
    shows("228,00,229 229,00,230 230,00,227", "");
}

// ---- "whether the new instruction adds a way"

#[test]
fn a_way_added_brings_in_all_that_it_leads_to() {
    let fork = "120,62,130,140 130,00,131 131,00,132 140,00,141 141,00,131";
    shows(fork, "");
    shows(&format!("{fork} 100,00,120"), "120 130-132 140-141");
    shows(&format!("{fork} 100,00,140"), "131-132 140-141");
    shows(&format!("{fork} 100,62,130,140"), "130-132 140-141");
    shows(&format!("{fork} 100,00,120 132,00,200"), "120 130-132 140-141 200");
}

#[test]
fn a_way_added_to_a_used_cell_brings_in_nothing() {
    shows("100,00,120 101,00,120", "120");
    shows("100,00,120 120,00,120", "120");
    shows("100,00,120 120,00,121 121,00,120", "120-121");
    shows("100,00,120 120,00,121 121,62,100,120", "120-121");
}

#[test]
fn an_eee_added_beside_a_ddd_brings_in_what_it_leads_to() {
    shows("121,00,122 100,00,120 100,62,121,120", "120-122");
    shows("121,00,122 100,00,120 100,63,I0,0,120,121", "120-122");
}

// ---- "or takes one off"

#[test]
fn a_way_taken_off_drops_what_nothing_else_leads_to() {
    shows("100,00,120 120,00,121 121,00,122 100,00,000", "");
    shows("100,00,120 120,00,121 121,00,122 120,00,000", "120");
    shows("100,00,120 120,00,121 121,00,122 120,69", "120");
    shows("100,00,101 101,00,102 102,00,103 101,00,000", "");
    shows("100,62,120,130 100,00,130", "130");
    shows("100,62,120,130 100,62,120,000", "120");
    shows("100,63,I0,0,120,130 100,00,120", "120");
}

#[test]
fn a_way_taken_off_keeps_what_another_way_leads_to() {
    shows("100,00,120 101,00,120 120,00,121 100,00,000", "120-121");
    shows("100,00,120 115,00,121 120,00,121 100,00,000", "121");
    shows("100,62,120,121 120,00,121 121,00,122 100,00,120", "120-122");
    shows("100,62,120,121 120,00,121 121,00,122 100,00,121", "121-122");
    shows("100,00,120 120,62,121,122 121,00,123 122,00,123 120,00,122", "120 122-123");
}

// DDD and EEE may be the same cell; then one of them keeps it.
#[test]
fn a_way_that_stands_twice_is_taken_off_by_halves() {
    shows("100,62,120,120 100,00,120", "120");
    shows("100,62,120,120 100,62,120,000", "120");
    shows("100,62,120,120 100,62,121,120", "120-121");
    shows("100,62,120,120 100,62,121,120 100,00,000", "");
    shows("100,62,120,121 100,62,121,120", "120-121");
}

#[test]
fn a_way_is_changed_for_another() {
    shows("120,00,121 130,00,131 100,00,120 100,00,130", "130-131");
    shows("120,00,121 130,00,121 100,00,120 100,00,130", "121 130");
    shows("100,00,120 100,00,115", "");
    shows("100,62,120,130 100,62,130,140", "130 140");
}

#[test]
fn a_chain_is_cut_in_the_middle_and_joined_again() {
    let up: Vec<u8> = (116..=230).collect();
    let mut kept = written(&format!("{} 100,00,116", chain(&up, 0)));
    for cut in [116, 117, 173, 229] {
        kept.write(&format!("{cut},00,000"));
        let left = if cut == 116 { "116".to_string() } else { format!("116-{cut}") };
        assert_eq!(kept.shown(), left);
        kept.write(&format!("{cut},00,{}", cut + 1));
        assert_eq!(kept.shown(), "116-230");
    }
    kept.write("100,00,230");
    assert_eq!(kept.shown(), "230");
}

// ---- circles: exact reach, not a number of ways that lead to a cell

#[test]
fn a_circle_goes_with_its_only_entry() {
    shows("100,00,120 120,00,121 121,00,120 100,00,000", "");
    shows("120,00,121 121,00,122 122,00,120 100,00,121 100,00,130", "130");
    shows("100,00,120 120,62,121,122 121,00,120 122,00,121 100,69", "");
    let round: Vec<u8> = (116..=230).collect();
    shows(&format!("100,00,116 {} 100,00,000", chain(&round, 116)), "");
    shows(&format!("{} 115,62,230,116 115,00,000", chain(&round, 116)), "");
}

#[test]
fn a_circle_with_an_entry_left_stays() {
    let round = "120,00,121 121,00,122 122,00,120";
    shows(&format!("{round} 100,00,120 101,00,122 100,00,000"), "120-122");
    shows(&format!("{round} 100,00,120 101,00,122 100,00,000 101,00,000"), "");
    shows(&format!("{round} 100,62,120,121 100,00,121"), "120-122");
}

#[test]
fn a_circle_opened_keeps_what_comes_before_the_gap() {
    let round = "100,00,120 120,00,121 121,00,122 122,00,120";
    shows(&format!("{round} 121,00,000"), "120-121");
    shows(&format!("{round} 122,00,000"), "120-122");
    shows(&format!("{round} 120,00,120"), "120");
}

#[test]
fn a_circle_through_the_first_16_stays() {
    shows("100,00,120 120,00,121 121,00,100", "120-121");
    shows("100,00,120 120,00,121 121,00,100 100,00,000", "");
}

#[test]
fn two_joined_circles_go_with_their_only_entry() {
    // 120 and 121, from which 62's EEE leads to 130 and 131.
    let joined = "120,00,121 121,62,130,120 130,00,131 131,00,130";
    shows(&format!("{joined} 100,00,120"), "120-121 130-131");
    shows(&format!("{joined} 100,00,120 100,00,000"), "");
    shows(&format!("{joined} 100,00,120 100,00,131"), "130-131");
    shows(&format!("{joined} 100,00,120 101,00,130 100,00,000"), "130-131");
    shows(&format!("{joined} 100,00,120 101,00,130 121,00,120"), "120-121 130-131");
    shows(&format!("{joined} 100,00,120 121,00,120"), "120-121");
    // Joined both ways, each is an entry of the other.
    let both = "120,00,121 121,62,130,120 130,00,131 131,62,120,130";
    shows(&format!("{both} 100,00,130"), "120-121 130-131");
    shows(&format!("{both} 100,00,130 100,00,000"), "");
    shows(&format!("{both} 100,00,130 131,00,130"), "130-131");
}

#[test]
fn a_cell_that_leads_to_itself_does_not_keep_itself() {
    shows("120,00,120", "");
    shows("120,00,120 100,00,120", "120");
    shows("120,00,120 100,00,120 100,00,000", "");
    shows("120,62,120,120 100,00,120 100,00,000", "");
    shows("120,62,120,121 121,62,121,120 100,00,121 100,69", "");
    shows("100,00,120 120,00,120 120,00,000", "120");
}

// ---- cells that are not used

#[test]
fn a_cell_that_is_not_used_brings_in_nothing() {
    shows("120,00,121", "");
    shows("120,62,121,122 121,00,123", "");
    shows("120,00,121 120,00,000", "");
    shows("100,00,130 120,00,130 120,00,000", "130");
    shows("100,00,130 120,62,130,121 120,69", "130");
}

#[test]
fn what_was_written_meanwhile_counts_when_its_cell_is_reached() {
    shows("120,00,121 120,00,122 122,00,123 100,00,120", "120 122-123");
    shows("120,00,121 100,00,120 100,00,000 120,00,130 100,00,120", "120 130");
}

/// Every pair of ways among three cells, and none.
const CONTENTS: [&str; 7] =
    ["69", "00,116", "60,117", "65,9,118", "62,116,117", "62,118,116", "63,S0,1,117,118"];

// 02: "After every list of WN strings .., the map is what a fresh count over the cells gives." Cell
// 100 and three others hold any of these contents, and then each of them gets any other.
#[test]
fn every_change_of_one_of_four_cells_is_followed() {
    let cells = [100, 116, 117, 118];
    for memory in 0..7_usize.pow(4) {
        let content = |at: u32| CONTENTS[memory / 7_usize.pow(at) % 7];
        let texts = (0..).zip(cells).map(|(at, cell)| format!("{cell},{}", content(at)));
        let made = written(&texts.collect::<Vec<_>>().join(" "));
        for cell in cells {
            for content in CONTENTS {
                let mut kept = made;
                kept.write(&format!("{cell},{content}"));
            }
        }
    }
}
