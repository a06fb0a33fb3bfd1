//! How deep a closed input goes: the depth of its deepest parameter, wherever that and its deepest field stand, up to D; and inputs that are
//! refused by 10, which have none.
use remburai::*;

const WORD: u32 = 0xA5A5_A5A5;

/// The numbers of the three types. A number is zero or suc of a number; a tree is a leaf with a number or a node of three trees; a list of
/// trees is empty or a tree before a list. All have the constructors 0 and 1, in this order.
const NUMBER: u8 = 0;
const TREE: u8 = 1;
const LIST: u8 = 2;

/// A rule file with these types and one function, which has parameters of these and reaches its target at once.
fn rule(parameters: &[u8], depth: u8) -> Vec<u8> {
    let types = b"TY\x02\x00\x01\x00TY\x02\x01\x00\x03\x01\x01\x01TY\x02\x00\x02\x01\x02";
    let function = [b"FN", &[parameters.len() as u8][..], parameters].concat();
    let body = b"\x00\x05\x00\x05\x07\x02\x00\x00";
    [&types[..], &function, body, b"GO\x00\x07", &[depth, 0, 0]].concat()
}

/// How deep an input goes, or the number by which it is refused; then no word is changed.
fn depth(parameters: &[u8], most: u8, input: &[u8]) -> Result<u8, u8> {
    let mut work = vec![WORD; work_words(0)];
    match run(&rule(parameters, most), input, &mut work) {
        Ok(Ran { outcome, depth }) => {
            assert_eq!(outcome, Outcome::Reached(0));
            Ok(depth)
        }
        Err(why) => {
            assert!(work.iter().all(|word| *word == WORD));
            Err(why.number())
        }
    }
}

/// A number, so deep.
fn number(depth: usize) -> Vec<u8> {
    [vec![1; depth - 1], vec![0]].concat()
}

/// A leaf with a number, so deep.
fn leaf(depth: usize) -> Vec<u8> {
    [vec![0], number(depth - 1)].concat()
}

#[test]
fn without_parameters() {
    for most in [1, 64] {
        assert_eq!(depth(&[], most, &[]), Ok(0));
        assert_eq!(depth(&[], most, &[0]), Err(10));
    }
}

/// One of eight is deeper than the others.
#[test]
fn the_deepest_parameter() {
    assert_eq!(depth(&[NUMBER; 8], 1, &[0; 8]), Ok(1));
    for place in 0..8 {
        let mut values = vec![number(2); 8];
        values[place] = number(5);
        let input = values.concat();
        assert_eq!(depth(&[NUMBER; 8], 64, &input), Ok(5), "{place}");
        assert_eq!(depth(&[NUMBER; 8], 5, &input), Ok(5), "{place}");
        assert_eq!(depth(&[NUMBER; 8], 4, &input), Err(10), "{place}");
    }
}

/// One of three fields is deeper than the others; the value by itself, and in other types.
#[test]
fn the_deepest_field() {
    for place in 0..3 {
        let mut fields = [leaf(2), leaf(3), leaf(2)];
        fields[place] = leaf(4);
        let tree = [vec![1], fields.concat()].concat();
        assert_eq!(depth(&[TREE], 5, &tree), Ok(5), "{place}");
        assert_eq!(depth(&[TREE], 4, &tree), Err(10), "{place}");
        let list = [vec![1], leaf(2), vec![1], tree.clone(), vec![0]].concat();
        assert_eq!(depth(&[LIST], 7, &list), Ok(7), "{place}");
        let input = [number(3), list, tree].concat();
        assert_eq!(depth(&[NUMBER, LIST, TREE], 7, &input), Ok(7), "{place}");
        assert_eq!(depth(&[NUMBER, LIST, TREE], 6, &input), Err(10), "{place}");
    }
}

/// Lists, which nest in their last field, and trees that nest in their first one.
#[test]
fn what_nests_in_a_field() {
    for nodes in [0, 1, 9, 62] {
        let list = [[vec![1], leaf(2)].concat().repeat(nodes), vec![0]].concat();
        let deep = if nodes == 0 { 1 } else { nodes + 2 };
        assert_eq!(depth(&[LIST], 64, &list), Ok(deep as u8));
        let tree = [vec![1; nodes], leaf(2), leaf(2).repeat(2 * nodes)].concat();
        assert_eq!(depth(&[TREE], 64, &tree), Ok(nodes as u8 + 2));
    }
}

/// A value may be as deep as D, and D is at most 64.
#[test]
fn up_to_the_depth_of_the_rule() {
    for most in [1, 2, 63, 64] {
        for deep in 1..=70 {
            let value = number(deep);
            let wanted = match deep <= most {
                true => Ok(deep as u8),
                false => Err(10),
            };
            let most = most as u8;
            assert_eq!(depth(&[NUMBER], most, &value), wanted, "{deep} of {most}");
            let (first, last) = ([&value[..], &[0]].concat(), [&[0], &value[..]].concat());
            assert_eq!(depth(&[NUMBER; 2], most, &first), wanted);
            assert_eq!(depth(&[NUMBER; 2], most, &last), wanted);
        }
    }
}

/// Inputs that are no values of the parameters: cut off, with something left over, with a constructor that is none of its type, or open.
#[test]
fn inputs_that_are_refused() {
    let input = [number(5), vec![1], leaf(2), leaf(3), leaf(4)].concat();
    let see = |input: &[u8], wanted| assert_eq!(depth(&[NUMBER, TREE], 5, input), wanted);
    see(&input, Ok(5));
    for length in 0..input.len() {
        see(&input[..length], Err(10));
    }
    for behind in [0, 1, 2, 255] {
        see(&[&input[..], &[behind]].concat(), Err(10));
    }
    for at in 0..input.len() {
        for byte in 2..=255 {
            let mut changed = input.clone();
            changed[at] = byte;
            see(&changed, Err(10));
        }
    }
}

/// 10 comes before 11.
#[test]
fn a_work_slice_that_is_too_short() {
    let file = rule(&[NUMBER], 4);
    let mut work = vec![WORD; work_words(0) - 1];
    assert_eq!(
        run(&file, &number(4), &mut work),
        Err(Refusal::WorkTooShort)
    );
    assert_eq!(run(&file, &number(5), &mut work), Err(Refusal::BadInput));
}

/// A tree with so many levels of nodes above these leaves.
fn wide(levels: u32, leaves: &mut impl Iterator<Item = Vec<u8>>) -> Vec<u8> {
    if levels == 0 {
        return leaves.next().expect("leaves do not run out");
    }
    let fields: Vec<Vec<u8>> = (0..3).map(|_| wide(levels - 1, leaves)).collect();
    [vec![1], fields.concat()].concat()
}

/// More than a million bytes that fit, with one leaf deeper than the others: the first, one between, or the last. Then a byte less, and one more.
#[test]
fn very_long_inputs_that_fit() {
    let leaves = 3_usize.pow(12);
    for place in [0, leaves / 2, leaves - 1] {
        let mut each = (0..leaves).map(|at| leaf(if at == place { 5 } else { 2 }));
        let input = wide(12, &mut each);
        assert!(1_000_000 < input.len());
        assert_eq!(depth(&[TREE], 64, &input), Ok(17), "{place}");
        assert_eq!(depth(&[TREE], 17, &input), Ok(17), "{place}");
        assert_eq!(depth(&[TREE], 16, &input), Err(10), "{place}");
        assert_eq!(depth(&[TREE], 64, &input[..input.len() - 1]), Err(10));
        assert_eq!(depth(&[TREE], 64, &[&input[..], &[0]].concat()), Err(10));
    }
}

/// A million constructors, each in the one before it, and values with as much behind them.
#[test]
fn very_long_inputs() {
    for byte in [0, 1] {
        let long = vec![byte; 1_000_000];
        for parameters in [&[NUMBER][..], &[TREE], &[LIST], &[LIST; 8], &[]] {
            assert_eq!(depth(parameters, 64, &long), Err(10));
        }
    }
}
