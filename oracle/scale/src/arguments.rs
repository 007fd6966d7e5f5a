//! What the programs are called with.

/// One number, and perhaps another one, which is otherwise 0.
pub fn two_numbers() -> Option<(u64, u64)> {
    let numbers = std::env::args().skip(1).map(|text| text.parse());
    match numbers.collect::<Result<Vec<u64>, _>>().as_deref() {
        Ok([one]) => Some((*one, 0)),
        Ok([one, other]) => Some((*one, *other)),
        _ => None,
    }
}
