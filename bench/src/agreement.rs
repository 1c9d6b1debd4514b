//! What holds before anything is timed: the product, the plain checker and the tuned one answer alike.

use bench::{plain, tuned};
use evidence::answer::WORK_SPACE;
use evidence::checking::{Checker, WorkSpace};
use evidence::series::SEED;
use evidence::{draw, known};

const DRAWN: u64 = 5_000;

/// Holds the product against both checkers on the known pairs and the first drawn ones: the four numbers, and the
/// work space afterwards.
pub fn agree(product: Checker) -> Result<(), String> {
    let mut work = WorkSpace::default();
    let mut alike = |program: &[u8], split: &[u8], room| {
        let checkers = [product, plain::check, tuned::check];
        let [product, plain, tuned] = checkers.map(|checker| work.check(checker, program, split, room));
        match product == plain && product == tuned {
            true => Ok(()),
            false => Err(format!("product {product:?}, plain checker {plain:?}, tuned checker {tuned:?}")),
        }
    };
    for known in known::all() {
        let (program, split) = known.sheets();
        alike(&program, &split, WORK_SPACE).map_err(|fault| format!("known pair {}: {fault}", known.program))?;
    }
    for number in 0..DRAWN {
        let drawn = draw::pair(SEED, number);
        alike(&drawn.program, &drawn.split, drawn.room)
            .map_err(|fault| format!("pair {number} of seed {SEED}: {fault}"))?;
    }
    Ok(())
}
