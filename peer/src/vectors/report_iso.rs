//! Messages of ISO 9141-2: the scenes of J1850 that they share, and those that
//! only they have.

use super::report_frames::{lent, lent_longest, random_scenes, refusals};
use crate::case::Case;
use crate::frame::bus::Bus;
use crate::frame::draft::{message_of, Draft, ISO_FIRST_BYTES};
use crate::frame::iso::{fitting_first_byte, is_first_byte_wrong, HEADER_LENGTH};
use crate::frame::reader;
use crate::random::Random;
use crate::report::scene::{Sample, Scene};

pub fn cases(random: &mut Random) -> Vec<Case> {
    let groups = [
        first_bytes(random),
        lengths(random),
        refusals(Bus::Iso9141, random),
        lent(Bus::Iso9141, 12, random),
        lent_longest(Bus::Iso9141, random),
        random_scenes(Bus::Iso9141, 150, random),
    ];
    groups.into_iter().flatten().collect()
}

/// The same supplement, parts and output on the other bus, where the frame is
/// accepted and has H = 0 and K = 1.
pub fn as_message(case: &Case) -> Option<Case> {
    let [supplement, first, response] = &case.inputs[..] else {
        return None;
    };
    let parts = reader::read(first, response).ok()?;
    let draft = Draft::new(parts.header, parts.data, parts.response);
    let is_message = draft.header.len() == HEADER_LENGTH && !is_first_byte_wrong(draft.header[0]);
    is_message.then(|| {
        let runs = draft.runs_on(Bus::Iso9141);
        Case::report_on(Bus::Iso9141, supplement.clone(), runs).lent(case.out_length)
    })
}

/// Each first byte with a layout for that of its priority and type.
fn first_bytes(random: &mut Random) -> Vec<Case> {
    let items = [Sample::sae(0x1025, 0x65)];
    let mut list = Vec::new();
    for first_byte in 0..=255 {
        let scene = Scene::holding(fitting_first_byte(first_byte), &items, random);
        let mut scene = scene.on(Bus::Iso9141);
        scene.frame.header[0] = first_byte;
        list.push(scene.case());
    }
    list
}

/// Each length with the right sum and no layout.
fn lengths(random: &mut Random) -> Vec<Case> {
    let mut list = Vec::new();
    for length in 0..=14 {
        for first_byte in ISO_FIRST_BYTES {
            let runs = (message_of(first_byte, length, random), Vec::new());
            list.push(Case::report_on(Bus::Iso9141, Vec::new(), runs));
        }
    }
    list
}
