// Records as bytes.

/// A variable, a constant or a goal.
pub fn record(out: &mut Vec<u8>, kind: u8, number: u32) {
    out.extend([kind, (number / 256) as u8, number as u8]);
}

/// A compound term or a formula.
pub fn symbol(out: &mut Vec<u8>, kind: u8, number: u32, arity: u32) {
    record(out, kind, number);
    out.push(arity as u8);
}

pub fn clause(out: &mut Vec<u8>, body: u32) {
    out.extend([5, body as u8]);
}
