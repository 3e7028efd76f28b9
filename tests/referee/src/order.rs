//! The order of Okui and Suzuki, by paths and sizes.

use crate::value::Value;
use std::cmp::Ordering;
use std::collections::BTreeMap;

type Path = Vec<u8>;

/// The size at every path of a value. The map's order of keys is the order of
/// paths: a path before its extensions, then by the first difference.
fn sizes(value: &Value) -> BTreeMap<Path, i64> {
    let mut map = BTreeMap::new();
    enter(value, &mut Path::new(), &mut map);
    map
}

/// Enters a value and all below it; gives its size.
fn enter(value: &Value, path: &mut Path, map: &mut BTreeMap<Path, i64>) -> i64 {
    let mut into = |number: u8, child: &Value| {
        path.push(number);
        let size = enter(child, path, map);
        path.pop();
        size
    };
    let size = match value {
        Value::Void => 0,
        Value::Byte(_) => 1,
        Value::Left(v) => into(0, v),
        Value::Right(v) => into(1, v),
        Value::Seq(v1, v2) => into(0, v1) + into(1, v2),
        Value::Stars(vs) => vs.iter().zip(0..).map(|(v, i)| into(i, v)).sum(),
    };
    map.insert(path.clone(), size);
    size
}

/// Less if the first ranks ahead, Greater if the second does.
pub fn rank(first: &Value, second: &Value) -> Ordering {
    let (one, two) = (sizes(first), sizes(second));
    let mut paths: Vec<&Path> = one.keys().chain(two.keys()).collect();
    paths.sort();
    paths.dedup();
    for path in paths {
        let size_one = one.get(path).copied().unwrap_or(-1);
        let size_two = two.get(path).copied().unwrap_or(-1);
        if size_one != size_two {
            return size_two.cmp(&size_one);
        }
    }
    Ordering::Equal
}

#[cfg(test)]
mod tests {
    use super::*;
    use std::rc::Rc;

    /// 255 iterations of one byte against 254, the last of two bytes.
    #[test]
    fn most_iterations() {
        let byte = Rc::new(Value::Byte(0x61));
        let one = Rc::new(Value::Stars(vec![byte.clone()]));
        let two = Rc::new(Value::Stars(vec![byte.clone(), byte]));
        let many = Value::Stars((0..255).map(|_| one.clone()).collect());
        let mut fewer: Vec<Rc<Value>> = (0..253).map(|_| one.clone()).collect();
        fewer.push(two);
        let fewer = Value::Stars(fewer);
        assert_eq!(rank(&fewer, &many), Ordering::Less);
        assert_eq!(rank(&many, &fewer), Ordering::Greater);
        assert_eq!(rank(&many, &many), Ordering::Equal);
    }
}
