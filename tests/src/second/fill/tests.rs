//! The second filler on the known sheets, and at the lengths of the buffer and of the filled sheet.

use super::fill;
use crate::answer::{Returned, SPLIT_BYTES, WORK_SPACE};
use crate::known;

/// What is written, a bar for each byte 10, or the refusal.
fn answer(program: &[u8], split: &[u8], buffer: usize) -> String {
    let mut out = vec![0; buffer];
    let returned = fill(program, split, WORK_SPACE, &mut out);
    match returned.number {
        0 => String::from_utf8_lossy(&out[..returned.line as usize]).replace('\n', "|"),
        _ => returned.to_string(),
    }
}

#[test]
fn known_sheets_get_their_answers() {
    for known in known::fillings() {
        let (program, split) = known.sheets();
        assert_eq!(answer(&program, &split, SPLIT_BYTES), known.answer, "{} with {}", known.program, known.split);
    }
}

#[test]
fn the_order_of_refusals() {
    let sheet = |maps: usize, row: &str| {
        let lines = vec!["2"; maps].join("\n");
        format!("C2,1,1,1,{maps},0\nint,0,0\n{lines}\n{row}").into_bytes()
    };
    let one = b"P,1\nint,0\n";
    let refused = |program: &[u8], split: &[u8], room| fill(program, split, room, &mut [0; 100]).to_string();
    assert_eq!(refused(b"", b"", WORK_SPACE - 1), "REFUSE,1,0,0,0");
    assert_eq!(refused(one, &sheet(257, "1,,\n"), WORK_SPACE), "REFUSE,22,260,0,0");
    assert_eq!(refused(one, &sheet(257, ""), WORK_SPACE), "REFUSE,23,259,0,0");
    assert_eq!(refused(one, &sheet(257, "0,,\n"), WORK_SPACE), "REFUSE,43,0,0,0");
    assert_eq!(refused(one, &sheet(512, "0,,\n"), WORK_SPACE), "REFUSE,43,0,0,0");
    assert_eq!(refused(one, &sheet(256, "0,,\n"), WORK_SPACE), "REFUSE,30,2,0,0");
    assert_eq!(refused(b"P,1\nnewlock,0\n", &sheet(256, "0,,\n"), WORK_SPACE), "REFUSE,30,2,0,0");
    let low_out = |maps: usize| {
        let lines = vec!["0"; maps - 2].join("\n");
        format!("C3,1,1,2,{maps},0\nint,0,0\nlock,0,1\n2\n1\n{lines}\n0,,\n").into_bytes()
    };
    assert_eq!(refused(one, &low_out(257), WORK_SPACE), "REFUSE,43,0,0,0");
    assert_eq!(refused(one, &low_out(256), WORK_SPACE), "REFUSE,44,3,0,0");
}

#[test]
fn a_buffer_at_the_length_and_one_under() {
    let (program, split) = (b"P,1\nint,0\n", b"C2,1,1,1,1,0\nint,0,0\n1\n0,,\n");
    let text = b"C2,1,1,1,2,0\nint,0,0\n1\n1\n0,1,\n";
    let mut out = [7; 40];
    assert_eq!(fill(program, split, WORK_SPACE, &mut out[..text.len()]), Returned::at_line(0, text.len() as u32));
    assert_eq!((&out[..text.len()], &out[text.len()..]), (&text[..], &[7; 40][text.len()..]));
    assert_eq!(answer(program, split, text.len() - 1), "REFUSE,42,0,0,0");
    assert_eq!(answer(program, split, 0), "REFUSE,42,0,0,0");
}
