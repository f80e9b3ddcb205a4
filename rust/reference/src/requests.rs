//! The requests on a description's bytes, with lent buffers and numbered
//! answers: the shape of the library's C face.

use crate::alignment::Alignment;
use crate::answer::{Answer, Refusal};

const ROW_NUMBERS: usize = 4;

/// Checks a description.
pub fn check(description: &[u8]) -> Answer {
    answer(crate::check(description).map_err(Refusal::from), |_| {
        Answer::WellFormed
    })
}

/// Asks one table.
pub fn ask(description: &[u8], table: u32, context: u32, code: &[u8]) -> Answer {
    let asked = || crate::ask(&crate::check(description)?, table, context, code);
    answer(asked(), Answer::Asked)
}

/// Checks a table for a clash.
pub fn clash(description: &[u8], table: u32) -> Answer {
    let checked = || crate::clash(&crate::check(description)?, table);
    answer(checked(), Answer::Clash)
}

/// Checks a decision tree of a table.
pub fn tree(description: &[u8], table: u32, tree: &[u8]) -> Answer {
    let checked = || crate::tree_check(&crate::check(description)?, table, tree);
    answer(checked(), Answer::Tree)
}

/// Builds the decision tree of a table.
pub fn build(description: &[u8], table: u32, lent: &mut [u8]) -> Answer {
    let mut built = || {
        let tree = crate::build(&crate::check(description)?, table)?;
        // Too little room is the tree's fault here.
        write(&tree, lent).map_err(|_| Refusal::TreeTooLarge)?;
        Ok(tree.len())
    };
    answer(built(), Answer::Written)
}

/// Decodes one instruction to rows, four numbers each.
pub fn rows(
    description: &[u8],
    context: u32,
    address: u32,
    code: &[u8],
    lent: &mut [i64],
) -> Answer {
    let mut decoded = || {
        let rows = crate::decode(&crate::check(description)?, context, address, code)?;
        write(rows.as_flattened(), lent)?;
        Ok(rows.len())
    };
    answer(decoded(), Answer::Written)
}

/// Decodes one instruction to text.
pub fn text(
    description: &[u8],
    context: u32,
    address: u32,
    code: &[u8],
    lent: &mut [u8],
) -> Answer {
    let mut decoded = || {
        let text = crate::decode_text(&crate::check(description)?, context, address, code)?;
        write(&text, lent)?;
        Ok(text.len())
    };
    answer(decoded(), Answer::Written)
}

/// Sweeps a code buffer; a row is four numbers.
pub fn sweep(
    description: &[u8],
    context: u32,
    address: u32,
    alignment: u32,
    code: &[u8],
    lent: &mut [i64],
) -> Answer {
    let room = lent.len() / ROW_NUMBERS;
    let mut swept = || {
        let description = crate::check(description)?;
        let alignment = Alignment::try_from(alignment)?;
        let sweep = crate::sweep(&description, context, address, alignment, code, room);
        write(sweep.rows.as_flattened(), lent)?;
        Ok(sweep)
    };
    answer(swept(), Answer::Swept)
}

/// Lists code from a place on as lines of text.
pub fn list(
    description: &[u8],
    context: u32,
    address: u32,
    alignment: u32,
    code: &[u8],
    from: u64,
    lent: &mut [u8],
) -> Answer {
    let mut listed = || {
        let (d, room) = (crate::check(description)?, lent.len());
        let alignment = Alignment::try_from(alignment)?;
        let listed = crate::list(&d, context, address, alignment, code, from, room);
        write(&listed.text, lent)?;
        Ok(listed)
    };
    answer(listed(), Answer::Listed)
}

fn write<T: Copy>(written: &[T], lent: &mut [T]) -> Result<(), Refusal> {
    lent.get_mut(..written.len())
        .ok_or(Refusal::LentTooShort)?
        .copy_from_slice(written);
    Ok(())
}

fn answer<T>(result: Result<T, Refusal>, done: impl Fn(T) -> Answer) -> Answer {
    match result {
        Ok(value) => done(value),
        Err(refusal) => Answer::Refused(refusal),
    }
}
