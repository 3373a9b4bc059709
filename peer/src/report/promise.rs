//! What a report keeps when records are added to the supplement or taken away,
//! told from the rows of two reports of one frame; and the premise under which it
//! is promised.

use super::line::verdict;
use super::rows::{is_unknown, Rows};
use crate::supplement::records::Records;
use crate::supplement::selector_length::SelectorLength;

/// The second supplement has no kind 4 record for any header for which the first
/// has a layout, except those that the first has too.
pub fn premise(first: &Records, second: &Records) -> bool {
    let is_against = |record: &SelectorLength| {
        first.has_layout_for(record.header) && !first.selector_lengths.contains(record)
    };
    !second.selector_lengths.iter().any(is_against)
}

/// A sentence of the promise, and whether two reports keep it, the first under
/// fewer records. The last argument tells whether these have the layout that the
/// second uses.
type Sentence = (&'static str, fn(&Rows, &Rows, bool) -> bool);

const SENTENCES: [Sentence; 6] = [
    (
        "a shown line is the same with more records",
        |fewer, more, _| is_shown_kept(fewer, more),
    ),
    ("Clear stays Clear", |fewer, more, _| {
        fewer.verdict != verdict::CLEAR || more.verdict == verdict::CLEAR
    }),
    ("Flagged stays Flagged", |fewer, more, _| {
        fewer.verdict != verdict::FLAGGED || more.verdict == verdict::FLAGGED
    }),
    (
        "with records taken away a line is the same, Unknown or missing",
        is_same_or_less,
    ),
    (
        "item lines go missing exactly when the layout is missing",
        |fewer, more, has_layout| match has_layout {
            true => fewer.items.len() == more.items.len(),
            false => fewer.items.is_empty(),
        },
    ),
    ("no verdict becomes Clear", |fewer, more, _| {
        more.verdict == verdict::CLEAR || fewer.verdict != verdict::CLEAR
    }),
];

/// The sentences that do not hold of the two reports.
pub fn broken_sentences(fewer: &Rows, more: &Rows, has_layout: bool) -> Vec<&'static str> {
    let broken = SENTENCES
        .iter()
        .filter(|(_, holds)| !holds(fewer, more, has_layout));
    broken.map(|(sentence, _)| *sentence).collect()
}

/// Each line of the first by name: it is Unknown, or the second has the same.
pub fn is_shown_kept(fewer: &Rows, more: &Rows) -> bool {
    let is_kept = |fewer: &[u8], more: Option<&&[u8]>| {
        is_unknown(fewer) || more.is_some_and(|more| *more == fewer)
    };
    let mut items = fewer.items.iter().enumerate();
    items.all(|(place, line)| is_kept(line, more.items.get(place)))
        && is_kept(fewer.remainder, Some(&more.remainder))
        && is_kept(fewer.response, Some(&more.response))
}

/// Each line of the second by name: the first has the same, an Unknown or none.
fn is_same_or_less(fewer: &Rows, more: &Rows, _: bool) -> bool {
    let is_less = |fewer: Option<&&[u8]>, more: &[u8]| {
        fewer.is_none_or(|fewer| is_unknown(fewer) || *fewer == more)
    };
    let mut items = more.items.iter().enumerate();
    items.all(|(place, line)| is_less(fewer.items.get(place), line))
        && is_less(Some(&fewer.remainder), more.remainder)
        && is_less(Some(&fewer.response), more.response)
}

#[cfg(test)]
mod tests {
    use super::*;
    use crate::case::Case;
    use crate::frame::check_byte::checked;
    use crate::report::rows::parse;
    use crate::supplement::draft::{layout_record, selector_length_record, Bytes};
    use crate::supplement::layout::Layout;
    use crate::supplement::selector_length::Header;

    fn layout(header: Header, length: u8) -> Bytes {
        let [first_byte, target] = header;
        let selector = if length == 1 { 0x41 } else { 0 };
        let key = [first_byte, target, length, selector, 0];
        layout_record(&Layout::of_key(key).with_prns(&[0x1025]))
    }

    fn length(header: Header, length: u8) -> Bytes {
        selector_length_record(&SelectorLength { header, length })
    }

    #[test]
    fn the_premise_by_headers() {
        let (one, other, bare) = ([0x08, 0x6B], [0x08, 0x6A], [0x18, 0]);
        let holds = |first: &[Bytes], added: &[Bytes]| {
            let second = [first, added].concat().concat();
            premise(&Records::of(&first.concat()), &Records::of(&second))
        };
        let layouts = [layout(one, 1), layout(bare, 0)];
        assert!(holds(&layouts, &[]));
        assert!(holds(&layouts, &[length(other, 2), layout(other, 1)]));
        assert!(!holds(&layouts, &[length(one, 2)]));
        // of the usual length, and where no layout of the first is found
        assert!(!holds(&layouts, &[length(one, 1)]));
        assert!(!holds(&layouts, &[length(bare, 0)]));
        let with_length = [layout(one, 1), length(one, 2)];
        assert!(holds(&with_length, &[layout(one, 0), length(other, 0)]));
        assert!(holds(&[], &[length(one, 2), layout(one, 1)]));
    }

    /// A record of length 0 added to the first supplement takes a shown line away.
    #[test]
    fn the_premise_is_needed() {
        let header = [0x08, 0x6B];
        let fewer = layout(header, 1);
        let more = [layout(header, 1), length(header, 0)].concat();
        let first = checked(&[0x48, 0x6B, 0x10, 0x41, 0x65]);
        let report = |supplement: &[u8]| {
            let case = Case::report(supplement.to_vec(), (first.clone(), Vec::new()));
            case.answer().1
        };
        let (shown, changed) = (report(&fewer), report(&more));
        assert!(!premise(&Records::of(&fewer), &Records::of(&more)));
        let rows = |bytes| parse(bytes).expect("a report");
        assert!(!is_shown_kept(&rows(&shown), &rows(&changed)));
    }

    fn rows<'a>(items: &[&'a [u8]], remainder: &'a [u8], verdict: u8) -> Rows<'a> {
        Rows {
            items: items.to_vec(),
            remainder,
            response: &[10, 0],
            verdict,
        }
    }

    #[test]
    fn each_sentence_is_told_from_the_rows() {
        let (one, two) = ([3, 0, 0, 0, 1], [3, 0, 0, 0, 2]);
        let full = rows(&[&one, &two], &[9, 0], 1);
        assert!(broken_sentences(&full, &full, true).is_empty());
        let fewer = rows(&[&one, &[8, 1]], &[8, 2], 3);
        assert!(broken_sentences(&fewer, &full, true).is_empty());
        let bare = rows(&[], &[8, 8], 3);
        assert!(broken_sentences(&bare, &full, false).is_empty());
        let missing = "item lines go missing exactly when the layout is missing";
        assert_eq!(broken_sentences(&bare, &full, true), [missing]);
        assert_eq!(broken_sentences(&fewer, &full, false), [missing]);
        let shown = "a shown line is the same with more records";
        let taken = "with records taken away a line is the same, Unknown or missing";
        let other = rows(&[&one, &one], &[9, 0], 1);
        assert_eq!(broken_sentences(&other, &full, true), [shown, taken]);
        let left = rows(&[&one, &two], &[9, 8], 3);
        assert_eq!(broken_sentences(&left, &full, true), [shown, taken]);
        let longer = rows(&[&one, &two, &one], &[9, 0], 1);
        assert_eq!(broken_sentences(&longer, &full, true), [shown, missing]);
        let clear = rows(&[&one, &[8, 1]], &[8, 2], 1);
        let flagged = rows(&[&one, &[7]], &[7], 2);
        let sentences = ["Clear stays Clear", "no verdict becomes Clear"];
        assert_eq!(broken_sentences(&clear, &flagged, true), sentences);
        let fewer = rows(&[&one, &[8, 1]], &[8, 2], 2);
        assert_eq!(
            broken_sentences(&fewer, &full, true),
            ["Flagged stays Flagged"]
        );
    }
}
