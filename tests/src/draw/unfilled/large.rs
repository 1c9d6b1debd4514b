//! Numbers past every limit: a chain of steps that add much, and of steps that take it away again.

use crate::answer::WHOLE;
use crate::draw::draft::{Draft, Heading, Map, Step};
use crate::draw::random::Random;
use crate::types::Type;
use crate::words::Word;

/// How many steps that add or take away there are at most: each has three lines.
const MOVES: usize = 84;

/// A draft whose numbers go up to 84,000,000,000 and come down to 0, or nearly so, or a little below.
pub fn draft(random: &mut Random) -> Draft {
    let start = random.pick(&[0, 1, WHOLE / 2, WHOLE - 1, WHOLE]);
    let load = random.pick(&[1, WHOLE / 2, WHOLE - 1, WHOLE]);
    let ups = if random.percent(30) { random.below(3) } else { random.below(MOVES / 2) };
    let downs = (ups + random.below(3)).min(MOVES - ups);
    let whole = |number| {
        let mut map = Map::default();
        map[0] = number;
        map
    };
    let types = vec![Type::Int, Type::Tid(1), Type::Sem(1)];
    let mut moves: Vec<(Word, Word, usize)> = vec![(Word::Join, Word::Newtid, 1); ups];
    moves.extend(vec![(Word::Post, Word::Newsem, 2); downs]);
    if random.percent(20) {
        random.shuffle(&mut moves);
    }
    let plain = |word, number, kind| Step { word, number, kind, post: 0, start: None };
    let mut steps = Vec::new();
    for (variable, &(word, new, kind)) in moves.iter().enumerate() {
        steps.extend([plain(Word::Let, variable as u32, 0), plain(word, 0, 0), plain(new, 0, kind)]);
    }
    steps.push(plain(Word::Int, 0, 0));
    let maps = vec![whole(start), whole(load)];
    Draft { heading: Heading::C2 { start: 0 }, whole: WHOLE, locations: 1, types, maps, steps, procedures: None }
}
