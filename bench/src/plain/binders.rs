//! Variables and calls (refusals 14, 15 and 49).

use super::lines::{refused, Line, Lines};
use super::program::Program;
use evidence::answer::Returned;
use evidence::words::Word;

/// The mark of a variable that nothing binds so far.
const UNBOUND: u32 = u32::MAX;

/// Gives each `var` the line that binds it and each `proc` line its procedure's number, and sees that each call
/// has its procedure, in line order.
pub fn bind(program: &Program, lines: &mut Lines, variables: &mut [u32]) -> Result<(), Returned> {
    variables.fill(UNBOUND);
    let mut begun = 0;
    for line in 0..program.lines {
        let Line { word, number, .. } = lines.at(line);
        match word {
            Word::Let => bind_one(&mut variables[number as usize], line)?,
            Word::Proc => {
                bind_one(&mut variables[number as usize], line)?;
                lines.set_number(line, begun);
                begun += 1;
            }
            Word::Var => {
                let binder = bound_at(lines, variables[number as usize], line)?;
                lines.set_number(line, binder);
            }
            Word::Call if number as usize >= program.procedures => return Err(refused(49, line)),
            _ => {}
        }
    }
    Ok(())
}

fn bind_one(variable: &mut u32, line: usize) -> Result<(), Returned> {
    if *variable != UNBOUND {
        return Err(refused(15, line));
    }
    *variable = line as u32;
    Ok(())
}

/// What binds a variable, if it does so at this line: a `let` in its second part, a procedure in its body.
fn bound_at(lines: &Lines, binder: u32, line: usize) -> Result<usize, Returned> {
    if binder == UNBOUND {
        return Err(refused(14, line));
    }
    let Line { word, second, end, .. } = lines.at(binder as usize);
    let begins = if word == Word::Proc { binder as usize } else { second };
    if (begins..end).contains(&line) {
        Ok(binder as usize)
    } else {
        Err(refused(14, line))
    }
}
