//! Sets of instruments as marks, and whether one lies inside another (document
//! 02, C-15).

use std::array;

/// A byte for each instrument: 1 if it is in the set, else 0.
pub type Marks = [u8; 24];

/// Four marks each.
pub type Words = [u32; 6];

pub fn marks(instruments: &[u32]) -> Marks {
    let mut marks = [0; 24];
    for &j in instruments {
        marks[j as usize - 1] = 1;
    }
    marks
}

pub fn words(marks: &Marks) -> Words {
    array::from_fn(|w| u32::from_le_bytes(array::from_fn(|k| marks[4 * w + k])))
}

/// No word of the list has a mark outside the group's.
pub fn by_word(list: &Marks, group: &Marks) -> bool {
    let mut pairs = words(list).into_iter().zip(words(group));
    pairs.all(|(l, g)| l & !g == 0)
}

/// Each instrument of the list is in the group.
pub fn one_by_one(list: &Marks, group: &Marks) -> bool {
    let mut pairs = list.iter().zip(group);
    pairs.all(|(&l, &g)| l == 0 || g == 1)
}
