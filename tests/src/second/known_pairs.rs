//! The second checker on the known pairs, and the order of the refusals that go by length.

use super::check;
use crate::answer::WORK_SPACE;
use crate::known;

#[test]
fn known_pairs_get_their_answers() {
    for known in known::all() {
        let (program, split) = known.sheets();
        let answer = check(&program, &split, WORK_SPACE).to_string();
        assert_eq!(answer, known.answer, "{} with {}", known.program, known.split);
    }
}

#[test]
fn lengths_come_in_order() {
    let one = b"P,1\nint,0\n";
    assert_eq!(check(b"", b"", WORK_SPACE - 1).to_string(), "REFUSE,1,0,0,0");
    assert_eq!(check(&[0; 16_385], b"", WORK_SPACE).to_string(), "REFUSE,10,0,0,0");
    assert_eq!(check(&[0; 16_384], b"", WORK_SPACE).to_string(), "REFUSE,11,1,0,0");
    assert_eq!(check(one, &[0; 65_537], WORK_SPACE).to_string(), "REFUSE,20,0,0,0");
    assert_eq!(check(one, &[0; 65_536], WORK_SPACE).to_string(), "REFUSE,21,1,0,0");
    assert_eq!(check(b"P,1\n", &[0; 65_537], WORK_SPACE).to_string(), "REFUSE,13,1,0,0");
}
