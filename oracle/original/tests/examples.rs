//! The protocol page's examples, asked of the original.

use protocol::Request;

const EXAMPLES: &str = include_str!("../../calls/examples");

/// Where the port refuses on purpose, and the original writes this, which is another token.
const DIFFERENT: [(&str, &str); 2] = [("write 99 lookup 16777216", "ok 5 410d000000"), ("write 99 id 3", "ok 2 0300")];

/// What the original does not answer: it cannot stand past its input, in a file that is too long or in a state that does
/// not fit, nor hold a text that is not there; it only fails where there is no room, and has no dump, no normal form and
/// no shortest spelling. It limits no save, rescues none, and keeps no table of contents.
const UNANSWERED: [&str; 55] = [
    "lex 0102 9 read_id",
    "write 5 u32 7",
    "write 0 id 3",
    "write 9 quoted *65536",
    "write 99 quoted 2 2 616263",
    "dump 0128010003004f0d05470d420d400d070400",
    "dump 0128030004000128430203001400010000001400020000001400030000000400",
    "normal 37 0128010003004f0d05470d420d400d070400",
    "normal 36 0128010003004f0d05470d420d400d070400",
    "normal 99 3f0d00000001",
    "normal 0 01283f0d00000001",
    "normal 0 01280f00020061",
    "normal 0 *2147483649",
    "shortest 2 quoted -",
    "shortest 99 unquoted -",
    "shortest 99 lookup 16777216",
    "shortest 99 f64 0000000000000000",
    "shortest 99 f64 00ffffffffffffff",
    "shortest 99 f64 01000000000000ff",
    "shortest 99 f64 0000000000000080",
    "shortest 0 id 3410",
    "shorten 99 0128010003006701fbffffffffffffff670100000000000000000f0000003f0d070000000400",
    "shorten 17 0128010003006701fbffffffffffffff670100000000000000000f0000003f0d070000000400",
    "shorten 99 01280f000200",
    "shorten 0 *2147483649",
    "rescue 15 04000128010003000e000203000f00090061",
    "rescue 14 04000128010003000e000203000f00090061",
    "rescue 99 0128010003004f0d05470d420d400d070400",
    "rescue 99 03003f0d00000001",
    "rescue 9 0400040003",
    "rescue 0 -",
    "rescue 0 *2147483649",
    "find 0128 3 0x2801",
    "at 100 lex 0102 9 read_id",
    "at 18446744073709551614 lex 0128 3 position",
    "at 18446744073709551614 lex 0128 0 peek_token",
    "at 18446744073709551615 find 0128 3 0x2801",
    "toc 0 *2147483649",
    "toc_search 2-16,16-24 16",
    "toc_search 2-16,16-24 15",
    "toc_search 2-16,16-24 1",
    "toc_search 2-16,16-24 24",
    "toc_search 2-16,16-24 4294967298",
    "toc_search 2-16,17-24 3",
    "toc_search - 0",
    "toc_write 21 2-16,16-24",
    "toc_write 20 2-16,16-24",
    "toc_write 5 -",
    "toc_write 0 2-16,15-24",
    "toc_read 3 010000001000000002000000100000001000000018",
    "toc_read 1 010000001000000002000000100000001000000018",
    "toc_read 1 010000000900000002000000100000",
    "toc_read 0 01000000080000000200000002",
    "toc_read 0 0100000000",
    "source state 0102030405060708 8 6 100 aabb 0 f 0 : ensure 3",
];

/// All the others.
const ANSWERED: usize = 64;

#[test]
fn the_original_answers_as_the_page_says() {
    let lines: Vec<&str> = EXAMPLES.lines().collect();
    let (pairs, odd) = lines.as_chunks::<2>();
    assert!(odd.is_empty(), "without an answer: {odd:?}");
    let (mut answered, mut different, mut unanswered) = (0, Vec::new(), Vec::new());
    for [request, wanted] in pairs {
        let parsed = Request::parse(request).unwrap_or_else(|| panic!("not understood: {request}"));
        let Some(answer) = original::answer_request(&parsed) else {
            unanswered.push(*request);
            continue;
        };
        answered += 1;
        if answer != *wanted {
            different.push((*request, answer));
        }
    }
    assert_eq!(different, DIFFERENT.map(|(request, answer)| (request, answer.to_string())));
    assert_eq!(unanswered, UNANSWERED);
    assert_eq!(answered, ANSWERED);
}
