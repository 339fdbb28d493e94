//! Spaces of every length are lent, and every byte of them is looked at after the call.
use rowfind::{answer, Reply, LONGEST_ANSWER};

/// The text of numbers in six columns, one line for each list.
fn text(lines: &[&[u32]]) -> Vec<u8> {
    let mut bytes = Vec::new();
    for line in lines {
        for number in *line {
            bytes.extend(format!("{number:6}").into_bytes());
        }
        bytes.push(b'\n');
    }
    bytes
}

/// A space whose bytes are all different from those of an answer.
fn lent(length: usize) -> Vec<u8> {
    (0..length).map(|i| 128 + (i % 100) as u8).collect()
}

/// Calls with a space of each length from 0 to `most`, and checks number, length and bytes.
fn check_spaces(request: &[u8], written: &[u8], number: u32, most: usize) {
    for length in 0..=most {
        let before = lent(length);
        let mut after = before.clone();
        let reply = answer(request, &mut after);
        let fits = written.len() <= length;
        let expected = match (number, fits) {
            (0, true) => Reply { number: 0, length: written.len() },
            (0, false) => Reply { number: 10, length: 0 },
            _ => Reply { number, length: 0 },
        };
        assert_eq!(reply, expected, "space of {length}");
        let kept = if fits { written.len() } else { 0 };
        assert_eq!(&after[..kept], &written[..kept], "space of {length}");
        assert_eq!(&after[kept..], &before[kept..], "space of {length}");
    }
}

#[test]
fn an_accepted_search() {
    let request = text(&[&[1, 19, 4, 4], &[1, 4, 9, 13]]);
    let expected = text(&[&[0, 6, 18, 72], &[1, 4, 9, 13]]);
    check_spaces(&request, &expected, 0, expected.len() + 1);
}

#[test]
fn an_accepted_check() {
    let request = text(&[&[2, 7, 2, 4], &[1, 0, 0, 1]]);
    let expected = text(&[&[0, 2, 0, 1, 0]]);
    check_spaces(&request, &expected, 0, expected.len() + 1);
}

#[test]
fn surveys_by_polynomial() {
    let surveys: [(Vec<u8>, Vec<u8>); 3] = [
        (text(&[&[3, 2, 0, 0]]), text(&[&[0, 1], &[7, 2, 2]])),
        (text(&[&[3, 3, 0, 0]]), text(&[&[0, 2], &[11, 15, 47], &[13, 15, 47]])),
        (
            text(&[&[3, 4, 0, 0]]),
            text(&[&[0, 3], &[19, 68, 416], &[25, 68, 416], &[31, 68, 352]]),
        ),
    ];
    for (request, expected) in surveys {
        check_spaces(&request, &expected, 0, expected.len() + 1);
    }
}

#[test]
fn accepted_gates() {
    let lists: [(Vec<u8>, Vec<u8>); 3] = [
        (
            text(&[&[4, 7, 2, 4], &[2, 3, 0, 1]]),
            text(&[&[0, 4], &[1, 2], &[4, 3], &[0, 1], &[6, 2], &[5], &[7], &[2], &[3]]),
        ),
        (text(&[&[4, 7, 1, 1], &[3]]), text(&[&[0, 1], &[0, 1], &[2], &[0]])),
        (text(&[&[4, 7, 1, 1], &[0]]), text(&[&[0, 0], &[999999], &[999999]])),
    ];
    for (request, expected) in lists {
        check_spaces(&request, &expected, 0, expected.len() + 1);
    }
}

#[test]
fn accepted_circulants() {
    let rows: [(Vec<u8>, Vec<u8>); 3] = [
        (text(&[&[5, 283, 4, 3], &[1, 2, 3]]), text(&[&[0, 14, 38, 152], &[1, 1, 2, 3]])),
        (text(&[&[5, 7, 2, 2], &[3, 2]]), text(&[&[0, 2, 4, 8], &[2, 3]])),
        (text(&[&[5, 19, 3, 4], &[1, 2, 3, 4]]), text(&[&[0, 1, 9, 27], &[1, 1, 2]])),
    ];
    for (request, expected) in rows {
        check_spaces(&request, &expected, 0, expected.len() + 1);
    }
}

#[test]
fn accepted_walks() {
    let walks: [(Vec<u8>, Vec<u8>); 4] = [
        (text(&[&[6, 19, 4, 4, 1], &[1, 4, 9, 13]]), text(&[&[0, 0, 1, 18, 18], &[1, 4, 9, 13]])),
        (text(&[&[6, 19, 4, 4, 24], &[13, 9, 4, 1]]), text(&[&[0, 1, 24, 18, 18], &[1, 4, 9, 13]])),
        (text(&[&[6, 19, 4, 4, 23], &[1, 2, 4, 8]]), text(&[&[0, 0, 23, 999999, 18], &[0; 4]])),
        (
            text(&[&[6, 19, 8, 8, 0], &[2, 3, 4, 12, 5, 10, 8, 15]]),
            text(&[&[0, 0, 0, 999999, 64], &[0; 8]]),
        ),
    ];
    for (request, expected) in walks {
        check_spaces(&request, &expected, 0, expected.len() + 1);
    }
}

/// The longest list there is: it fits just its length, and one byte less leaves every byte as it was.
#[test]
fn the_longest_gates() {
    // No element of a field has a larger XOR count than 251 over 395, which has 42.
    const GATES: usize = 64 * 42 + 56 * 8;
    let request = text(&[&[4, 395, 8, 64], &[251; 16], &[251; 16], &[251; 16], &[251; 16]]);
    let mut whole = lent(LONGEST_ANSWER);
    let reply = answer(&request, &mut whole);
    assert_eq!(reply, Reply { number: 0, length: 13 + 13 * GATES + 7 * 64 });
    assert!(whole.starts_with(&text(&[&[0, GATES as u32]])));
    assert_eq!(whole[reply.length..], lent(LONGEST_ANSWER)[reply.length..]);

    let mut exact = lent(reply.length);
    assert_eq!(answer(&request, &mut exact), reply);
    assert_eq!(exact, whole[..reply.length]);

    let mut short = lent(reply.length - 1);
    assert_eq!(answer(&request, &mut short), Reply { number: 10, length: 0 });
    assert_eq!(short, lent(reply.length - 1));
}

#[test]
fn every_refusal() {
    let refused: [(u32, Vec<u8>); 9] = [
        (1, b"     1    19     4     4\n".to_vec()),
        (2, text(&[&[9, 19, 4, 0]])),
        (3, text(&[&[1, 3, 5, 0]])),
        (4, text(&[&[1, 21, 5, 0]])),
        (5, text(&[&[1, 19, 5, 0]])),
        (6, text(&[&[1, 19, 4, 0]])),
        (7, text(&[&[1, 19, 4, 2], &[16, 0]])),
        (8, text(&[&[1, 19, 4, 2], &[7, 7]])),
        (9, text(&[&[1, 19, 4, 4], &[1, 2, 4, 8]])),
    ];
    for (number, request) in refused {
        check_spaces(&request, &text(&[&[number]]), number, 9);
    }
}

#[test]
fn every_refusal_of_gates() {
    let refused: [(u32, Vec<u8>); 6] = [
        (1, b"     4     7     1     1\n".to_vec()),
        (3, text(&[&[4, 3, 9, 1], &[999]])),
        (4, text(&[&[4, 21, 9, 1], &[999]])),
        (5, text(&[&[4, 19, 9, 1], &[999]])),
        (6, text(&[&[4, 19, 2, 1], &[999]])),
        (7, text(&[&[4, 19, 1, 1], &[16]])),
    ];
    for (number, request) in refused {
        check_spaces(&request, &text(&[&[number]]), number, 9);
    }
}

#[test]
fn every_refusal_of_circulants() {
    let refused: [(u32, Vec<u8>); 8] = [
        (1, b"     5    19     4     4\n".to_vec()),
        (3, text(&[&[5, 3, 9, 0]])),
        (4, text(&[&[5, 21, 9, 0]])),
        (5, text(&[&[5, 19, 9, 0]])),
        (6, text(&[&[5, 19, 4, 9], &[16; 9]])),
        (7, text(&[&[5, 19, 4, 2], &[16, 0]])),
        (8, text(&[&[5, 19, 4, 2], &[7, 7]])),
        (9, text(&[&[5, 19, 4, 2], &[1, 2]])),
    ];
    for (number, request) in refused {
        check_spaces(&request, &text(&[&[number]]), number, 9);
    }
}

#[test]
fn every_refusal_of_walks() {
    let refused: [(u32, Vec<u8>); 11] = [
        (1, text(&[&[6, 19, 4, 4], &[1, 4, 9, 13]])),
        (1, text(&[&[1, 19, 4, 4, 24], &[1, 4, 9, 13]])),
        (1, text(&[&[9, 19, 4, 0, 24]])),
        (3, text(&[&[6, 3, 5, 0, 24]])),
        (4, text(&[&[6, 21, 5, 0, 24]])),
        (5, text(&[&[6, 19, 5, 0, 24]])),
        (6, text(&[&[6, 19, 4, 0, 24]])),
        (7, text(&[&[6, 19, 4, 2, 24], &[16, 0]])),
        (8, text(&[&[6, 19, 4, 2, 24], &[7, 7]])),
        (9, text(&[&[6, 19, 4, 4, 24], &[1, 2, 4, 8]])),
        (9, text(&[&[6, 19, 4, 3, 0], &[1, 4, 9]])),
    ];
    for (number, request) in refused {
        check_spaces(&request, &text(&[&[number]]), number, 9);
    }
}

#[test]
fn no_request_at_all() {
    check_spaces(b"", &text(&[&[1]]), 1, 9);
}

#[test]
fn in_a_thread_with_the_stated_stack() {
    let request = text(&[
        &[1, 415, 8, 16],
        &[22, 23, 52, 53, 74, 75, 104, 105, 146, 147, 176, 177, 206, 207, 236, 237],
    ]);
    answered_in_a_thread(request, text(&[&[0, 176, 232, 1856], &[52, 53, 75, 177, 105, 207, 206, 146]]));
    let request = text(&[&[5, 283, 8, 8], &[1, 2, 3, 4, 5, 6, 7, 8]]);
    answered_in_a_thread(request, text(&[&[0, 53, 109, 872], &[1, 1, 3, 1, 8, 4, 5, 6]]));
    let request = text(&[&[6, 19, 8, 8, 40320], &[2, 3, 4, 12, 5, 10, 8, 15]]);
    answered_in_a_thread(request, text(&[&[0, 1, 40320, 64, 64], &[2, 3, 4, 12, 5, 10, 8, 15]]));
}

/// Calls in a thread whose stack has just the bytes that are stated.
fn answered_in_a_thread(request: Vec<u8>, expected: Vec<u8>) {
    let call = move || {
        let mut space = lent(expected.len());
        let reply = answer(&request, &mut space);
        assert_eq!(reply, Reply { number: 0, length: expected.len() });
        assert_eq!(space, expected);
    };
    let thread = std::thread::Builder::new().stack_size(rowfind::STACK).spawn(call);
    thread.unwrap().join().unwrap();
}
