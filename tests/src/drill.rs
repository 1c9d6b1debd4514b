//! A second drill, written from document 02 alone, and what the product's drill is held to.

/// What a drill returns: 0 or 38, the new x, the lengths of program and split.
#[derive(Clone, Copy, Debug, PartialEq, Eq, Default)]
pub struct Drilled {
    pub number: u32,
    pub next: u32,
    pub program: u32,
    pub split: u32,
}

/// A drill: a seed and two lent buffers.
pub type Driller = fn(seed: u32, program: &mut [u8], split: &mut [u8]) -> Drilled;

impl Drilled {
    pub const SHORT: Drilled = Drilled { number: 38, next: 0, program: 0, split: 0 };
}

/// The new x.
pub fn draw(seed: u32) -> u32 {
    seed.wrapping_mul(1_664_525).wrapping_add(1_013_904_223)
}

/// The number of readers that a drawn number stands for.
pub fn readers(drawn: u32) -> u32 {
    1 + (drawn >> 16) % 31
}

/// The program sheet and the split sheet of k readers.
pub fn sheets(k: u32) -> (String, String) {
    let mut steps = vec!["let,0".to_string(), "ref,0".into(), "int,0".into(), "let,1".into(), "newtid,0".into()];
    let mut rows = vec!["0,0,".to_string(), "1,0,".into(), "0,0,".into(), "0,0,".into(), "2,0,".into()];
    let share = k - 1;
    for reader in 0..k {
        steps.push(format!("let,{}", 2 + reader));
        steps.extend(["spawn,0", "var,1", "read,0", "var,0"].map(String::from));
        rows.push("0,0,".into());
        rows.push(format!("0,{},{share}", reader + 1));
        rows.push(format!("2,{reader},"));
        rows.push(format!("0,{share},"));
        rows.push(format!("1,{share},"));
    }
    for join in 0..k {
        steps.push(format!("let,{}", 2 + k + join));
        steps.extend(["join,0", "var,1"].map(String::from));
        rows.push("0,0,".into());
        rows.push(format!("0,{},", k - join - 1));
        rows.push(format!("2,{},", k - join));
    }
    steps.extend(["write,0", "var,0", "int,1"].map(String::from));
    rows.extend(["0,0,", "1,0,", "0,0,"].map(String::from));
    let mut split = vec![format!("C,{k},1,3,{}", k + 1), "int,0,0".into(), "ref,0,0".into(), format!("tid,{share},0")];
    split.extend((0..=k).map(|map| (k - map).to_string()));
    split.extend(rows);
    let program = format!("P,{}\n{}\n", steps.len(), steps.join("\n"));
    (program, split.join("\n") + "\n")
}

/// The drill itself.
pub fn drill(seed: u32, program: &mut [u8], split: &mut [u8]) -> Drilled {
    let next = draw(seed);
    let (steps, rows) = sheets(readers(next));
    if program.len() < steps.len() || split.len() < rows.len() {
        return Drilled::SHORT;
    }
    program[..steps.len()].copy_from_slice(steps.as_bytes());
    split[..rows.len()].copy_from_slice(rows.as_bytes());
    Drilled { number: 0, next, program: steps.len() as u32, split: rows.len() as u32 }
}

/// The product's drill, where it is linked, beside this one.
#[cfg(all(test, product))]
mod beside {
    use super::*;
    use crate::answer::{Returned, WORK_SPACE};
    use crate::draw::random::Random;
    use crate::filling::{garbage, MARK};
    use crate::{product, second};

    /// A seed for each number of readers, 1 to 31.
    fn seeds() -> Vec<u32> {
        (1..=31).map(|k| (0..).find(|&seed| readers(draw(seed)) == k).expect("some seed")).collect()
    }

    /// Two buffers of given lengths, each with a mark behind it.
    struct Buffers {
        room: [usize; 2],
        bytes: [Vec<u8>; 2],
    }

    impl Buffers {
        fn new(program: usize, split: usize) -> Buffers {
            Buffers { room: [program, split], bytes: [garbage(program + MARK), garbage(split + MARK)] }
        }

        fn drill(&mut self, seed: u32) -> Drilled {
            let [program, split] = &mut self.bytes;
            let drill = product::DRILL.expect(product::NOT_LINKED);
            drill(seed, &mut program[..self.room[0]], &mut split[..self.room[1]])
        }

        /// Both buffers are their texts, and behind them all that was there before, the mark included.
        fn hold(&self, texts: [&str; 2]) {
            for (bytes, text) in self.bytes.iter().zip(texts) {
                assert_eq!(&bytes[..text.len()], text.as_bytes());
                assert_eq!(bytes[text.len()..], garbage(bytes.len())[text.len()..]);
            }
        }
    }

    #[test]
    fn every_number_of_readers_is_accepted() {
        for seed in seeds() {
            let (program, split) = sheets(readers(draw(seed)));
            let mut buffers = Buffers::new(2_048, 2_048);
            let made = buffers.drill(seed);
            let lengths = (program.len() as u32, split.len() as u32);
            assert_eq!(made, Drilled { number: 0, next: draw(seed), program: lengths.0, split: lengths.1 });
            buffers.hold([&program, &split]);
            let (program, split) = (&buffers.bytes[0][..program.len()], &buffers.bytes[1][..split.len()]);
            assert_eq!(second::check(program, split, WORK_SPACE), Returned::ACCEPT);
            let check = product::CHECK.expect(product::NOT_LINKED);
            assert_eq!(check(program, split, &mut vec![1; WORK_SPACE]), Returned::ACCEPT);
        }
    }

    #[test]
    fn room_for_both_texts_or_neither_is_written() {
        for seed in seeds() {
            let (program, split) = sheets(readers(draw(seed)));
            let (p, s) = (program.len(), split.len());
            for (program_room, split_room) in [(p, s), (p + 1, s), (p, s + 1)] {
                let mut buffers = Buffers::new(program_room, split_room);
                assert_eq!(buffers.drill(seed).number, 0);
                buffers.hold([&program, &split]);
            }
            for (program_room, split_room) in [(p - 1, s), (p, s - 1), (p - 1, s - 1), (0, s), (p, 0), (0, 0)] {
                let mut buffers = Buffers::new(program_room, split_room);
                assert_eq!(buffers.drill(seed), Drilled::SHORT);
                buffers.hold(["", ""]);
            }
        }
    }

    #[test]
    fn drawn_seeds_give_what_the_second_drill_gives() {
        let mut random = Random::new(2008, 2);
        for _ in 0..10_000 {
            let seed = random.between(0, u32::MAX);
            let [mut program, mut split] = [garbage(1_725), garbage(1_613)];
            let expected = drill(seed, &mut program, &mut split);
            let mut buffers = Buffers::new(1_725, 1_613);
            assert_eq!(buffers.drill(seed), expected);
            assert!(buffers.bytes[0].starts_with(&program) && buffers.bytes[1].starts_with(&split));
        }
    }
}

#[cfg(test)]
mod tests {
    use super::*;
    use crate::known;

    #[test]
    fn the_pairs_that_document_02_tells_of() {
        assert_eq!((draw(0), readers(draw(0))), (1_013_904_223, 2));
        assert_eq!(sheets(1).0.replace('\n', "|"), known::P);
        let longest = sheets(31);
        assert_eq!((longest.0.len(), longest.1.len()), (1_725, 1_613));
        assert!(longest.0.starts_with("P,256\n"));
    }
}
