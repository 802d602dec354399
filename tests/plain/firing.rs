//! The firing rule, over a row's takes, puts and hinders, each by rising flat place.

/// A weight above 0 at a flat place.
#[derive(Clone, Copy, Debug, PartialEq, Eq)]
pub struct Weight {
    pub place: u16,
    pub weight: u16,
}

/// Whether some count is below its take.
#[inline]
pub fn short(mut takes: impl Iterator<Item = Weight>, marking: &[u16]) -> bool {
    takes.any(|t| marking[t.place as usize] < t.weight)
}

/// Whether some hinder weight is not above its count.
#[inline]
pub fn hindered(mut hinders: impl Iterator<Item = Weight>, marking: &[u16]) -> bool {
    hinders.any(|h| h.weight <= marking[h.place as usize])
}

/// Whether some count, after takes that are all there, would pass 65,535 with its put.
#[inline]
pub fn overflows(takes: impl Iterator<Item = Weight>, mut puts: impl Iterator<Item = Weight>, marking: &[u16]) -> bool {
    let mut takes = takes.peekable();
    puts.any(|put| {
        while takes.next_if(|t| t.place < put.place).is_some() {}
        let taken = takes.peek().filter(|t| t.place == put.place).map_or(0, |t| t.weight);
        (marking[put.place as usize] - taken).checked_add(put.weight).is_none()
    })
}

/// Makes every count count - take + put, for a row that fires.
#[inline]
pub fn apply(takes: impl Iterator<Item = Weight>, puts: impl Iterator<Item = Weight>, marking: &mut [u16]) {
    takes.for_each(|t| marking[t.place as usize] -= t.weight);
    puts.for_each(|p| marking[p.place as usize] += p.weight);
}
