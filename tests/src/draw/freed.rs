//! The word that is gone: one line of an honest program says `freelock`.

use super::draft::Draft;
use super::promise::Promise;
use super::random::Random;
use super::Drawn;
use crate::answer::Returned;

/// Any line but the head; the number behind the word is judged before the word.
pub fn freelock(random: &mut Random, draft: &Draft) -> Drawn {
    let mut drawn = Drawn::of(draft, "freelock");
    let step = random.below(draft.steps.len());
    let number = if random.percent(70) { 0 } else { random.between(0, 300) };
    let mut lines: Vec<Vec<u8>> = drawn.program.split(|&byte| byte == b'\n').map(<[u8]>::to_vec).collect();
    lines[draft.line_of(step) - 1] = format!("freelock,{number}").into_bytes();
    drawn.program = lines.join(&b'\n');
    let refusal = if number == 0 { 45 } else { 12 };
    drawn.promise = Promise::Exactly(Returned::at_line(refusal, draft.line_of(step) as u32));
    drawn
}
