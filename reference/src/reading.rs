//! 01, "Strings": the full reading.

use crate::memory::{Drive, INPUT_NAMES, OUTPUT_NAMES};

/// 01: "The full reading, at the drive's own address: QM of 131 cells, QS of 5, QA, QO of O0 to O3,
/// FC, F0 to F7, CU, QI of 11, QC, QE, QR: 165." Each request with its byte 13.
pub fn requests(address: u8) -> Vec<Vec<u8>> {
    let mut texts = Vec::new();
    texts.extend((Drive::FIRST..=Drive::LAST).map(|cell| format!("QM,{cell}")));
    texts.extend(["AD", "IN", "RS", "ES", "CM"].map(|name| format!("QS,{name}")));
    texts.push("QA".to_string());
    texts.extend(OUTPUT_NAMES.map(|name| format!("QO,{name}")));
    texts.extend(INPUT_NAMES.map(|name| format!("QI,{name}")));
    texts.extend(["QC", "QE", "QR"].map(str::to_string));
    texts.iter().map(|text| format!("{address:02}{text}\r").into_bytes()).collect()
}

/// The answers to the 165 requests one after another; nothing where the drive is busy. 01: "The
/// full reading is taken with buffers of 64 bytes."
pub fn reading(drive: &mut Drive) -> Result<Vec<u8>, u8> {
    let mut answers = Vec::new();
    for request in requests(drive.presets.address) {
        let mut buffer = [0; 64];
        if let Some(length) = drive.string(&request, &mut buffer)? {
            answers.extend_from_slice(&buffer[..length]);
        }
    }
    Ok(answers)
}
