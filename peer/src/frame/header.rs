//! The first byte: priority (bits 7 to 5), H (4), K (3), Y (2), ZZ (1 to 0).

/// The response kinds of the sixteen message types KYZZ, from table 5 of
/// J2178-1, column "IFR Type"; `None` is unassigned.
const RESPONSE_KINDS: [Option<u8>; 16] = [
    Some(2), // 0 Function
    Some(1), // 1 Broadcast
    Some(2), // 2 Function Query
    Some(3), // 3 Function Read
    Some(1), // 4 Node-to-Node
    None,    // 5 Reserved
    None,    // 6 Reserved
    None,    // 7 Reserved
    Some(0), // 8 Function (Command/Status)
    Some(0), // 9 Function (Request/Query)
    Some(0), // 10 Function Extended (Command/Status)
    Some(0), // 11 Function Extended (Request/Query)
    Some(0), // 12 Node-to-Node
    Some(0), // 13 Block Transfer
    Some(0), // 14 Reserved, response not allowed
    Some(0), // 15 Reserved, response not allowed
];

/// H = 0: type, target and source. H = 1: the first byte alone.
pub fn header_length(first_byte: u8) -> usize {
    if first_byte & 0x10 == 0 {
        3
    } else {
        1
    }
}

/// The kind of response the message type asks for, in both header forms.
pub fn response_kind(first_byte: u8) -> Option<u8> {
    RESPONSE_KINDS[usize::from(first_byte & 0x0F)]
}

/// The response kind by the first byte of a run, if it has one.
pub fn kind_of_run(run: &[u8]) -> Option<u8> {
    run.first()
        .and_then(|first_byte| response_kind(*first_byte))
}

#[cfg(test)]
mod tests {
    use super::*;

    #[test]
    fn form_is_bit_four_alone() {
        for first_byte in 0..=255u8 {
            let one_byte_form = first_byte / 16 % 2 == 1;
            assert_eq!(header_length(first_byte) == 1, one_byte_form);
            assert_eq!(header_length(first_byte) == 3, !one_byte_form);
        }
    }

    #[test]
    fn kind_is_zero_exactly_with_k() {
        for first_byte in 0..=255u8 {
            let k = first_byte / 8 % 2 == 1;
            assert_eq!(response_kind(first_byte) == Some(0), k);
        }
    }

    #[test]
    fn kinds_of_k_zero_types() {
        let kinds: Vec<Option<u8>> = (0..8).map(response_kind).collect();
        assert_eq!(kinds[..5], [2, 1, 2, 3, 1].map(Some));
        assert_eq!(kinds[5..], [None; 3]);
        assert_eq!(response_kind(0xF3), Some(3));
        assert_eq!(kind_of_run(&[0x15]), None);
    }
}
