//! docs/STATES.md: what each event makes of a drive in each phase, found by giving the event to such
//! drives. The page is made here, and a page that is old fails. `STATES=write` writes it.

#[path = "states/events.rs"]
mod events;
#[path = "states/page.rs"]
mod page;
#[path = "states/rows.rs"]
mod rows;
#[path = "states/starts.rs"]
mod starts;
#[path = "states/taken.rs"]
mod taken;
#[path = "states/words.rs"]
mod words;

use std::path::PathBuf;

#[test]
fn the_page_of_states_is_what_the_drive_does() {
    let path = PathBuf::from(env!("CARGO_MANIFEST_DIR")).join("../docs/STATES.md");
    let page = page::page();
    if std::env::var_os("STATES").is_some_and(|word| word == "write") {
        std::fs::write(&path, &page).expect("docs/STATES.md is written");
    }
    let kept = std::fs::read_to_string(&path).unwrap_or_default();
    let old = page.lines().zip(kept.lines()).find(|(made, kept)| made != kept);
    assert!(page == kept, "docs/STATES.md is old, STATES=write writes it anew: {old:#?}");
}

// 01: "the phase is one that the present cell's code has": the rows have every code in every phase
// that it has.
#[test]
fn the_rows_have_every_phase_of_every_code() {
    let all = rows::rows();
    for made in rows::every_code_and_phase() {
        let has = |row: &rows::Row| row.drives.iter().any(|drive| rows::kind(drive) == made);
        assert!(all.iter().any(has), "{made:?} is in no row");
    }
}
