//! A rule file with a type whose least depth is not 1.

/// Three types: a leaf, a box of it, whose least depth is 2, and a leaf or a node with a box. One parameter of the third.
const BOXES: &[u8] = b"TY\x01\x00TY\x01\x01\x00TY\x02\x00\x01\x01FN\x01\x02\x02\x02\x00\x00\x00GO\x00\x07\x02\x14\x00";

/// The rule file with this D.
pub fn boxes(depth: u8) -> Vec<u8> {
    let mut file = BOXES.to_vec();
    file[BOXES.len() - 3] = depth;
    file
}
