//! What is written and read as JSON, beside what serde derives.

use i_shape::flat::{OwnedContours, OwnedShapes};
use i_shape::int::shape::{IntContour, IntShape};
use i_shape::int::simple::SimpleContour;
use i_shape::int::{AsIntPoints, IntPoint};
use i_shape::{int_path, int_shape, int_shapes};
use i_shape_serde::{Read, Serde, Written};
use serde::{Deserialize, Serialize};
use std::fmt::Debug;

/// The value is written as this text, and read from it.
fn is_both_ways<T: Written + for<'de> Read<'de> + PartialEq + Debug>(value: T, text: &str) {
    assert_eq!(serde_json::to_string(&Serde(&value)).unwrap(), text);
    assert_eq!(
        serde_json::from_str::<Serde<T>>(text).unwrap(),
        Serde(value)
    );
}

#[test]
fn each_type() {
    is_both_ways(
        IntPoint::new(i16::MIN, i16::MAX),
        r#"{"x":-32768,"y":32767}"#,
    );
    is_both_ways(
        IntPoint::new(i64::MIN, i64::MAX),
        r#"{"x":-9223372036854775808,"y":9223372036854775807}"#,
    );
    is_both_ways(int_path![[1_i32, 2]], r#"[{"x":1,"y":2}]"#);
    is_both_ways(int_shape![[[1_i32, 2]], []], r#"[[{"x":1,"y":2}],[]]"#);
    let shapes = int_shapes![[[[1_i32, 2]], []], []];
    let text = r#"[[[{"x":1,"y":2}],[]],[]]"#;
    is_both_ways(OwnedShapes::from_shapes(&shapes), text);
    is_both_ways(shapes, text);
    is_both_ways(
        OwnedContours::from_contours(&int_shape![[[1_i32, 2]], []]),
        r#"[[{"x":1,"y":2}],[]]"#,
    );
    is_both_ways(int_path![[0_i32, 0], [1, 1]].simplified(), "null");
    is_both_ways(Some(IntPoint::new(1_i32, 2)), r#"{"x":1,"y":2}"#);
}

/// As `IntPoint`, with what serde derives.
#[derive(Serialize, Deserialize)]
struct Derived {
    x: i32,
    y: i32,
}

#[test]
fn faults_are_those_of_derived_code() {
    for text in [
        "{}",
        r#"{"x":1}"#,
        r#"{"y":1}"#,
        r#"{"x":1,"y":2,"x":3}"#,
        r#"{"x":1,"y":2,"y":3}"#,
        r#"{"x":1.5,"y":2}"#,
        r#"{"x":4294967296,"y":2}"#,
        "[]",
        "[1]",
        "[1,2,3]",
        "1",
        "null",
        "[[1,2]]",
    ] {
        let derived = serde_json::from_str::<Derived>(text)
            .map(|_| ())
            .unwrap_err();
        let own = serde_json::from_str::<Serde<IntPoint<i32>>>(text).unwrap_err();
        assert_eq!(
            own.to_string()
                .replace("a point with x and y", "struct Derived"),
            derived
                .to_string()
                .replace("struct Derived with 2 elements", "struct Derived"),
            "{text}"
        );
    }
    for text in [r#"{"x":1,"y":2,"z":[3,{}]}"#, "[1,2]"] {
        let Derived { x, y } = serde_json::from_str(text).unwrap();
        assert_eq!(
            serde_json::from_str::<Serde<_>>(text).unwrap(),
            Serde(IntPoint::new(x, y))
        );
    }
}

/// A point of a caller's own has serde's traits by itself.
#[repr(C)]
#[derive(Clone, Copy, Serialize, Deserialize)]
struct Corner {
    east: i32,
    north: i32,
}

i_shape::contour_point!(Corner { east, north }: i32);

#[test]
fn own_points() {
    let text = r#"[{"east":0,"north":0},{"east":4,"north":0},{"east":4,"north":4}]"#;
    let parcel: Vec<Corner> = serde_json::from_str(text).unwrap();
    assert!(parcel.as_int_points().is_simple());
    assert_eq!(serde_json::to_string(&parcel).unwrap(), text);
}

#[derive(Serialize, Deserialize)]
struct Parcel {
    number: u32,
    #[serde(with = "i_shape_serde")]
    boundary: IntShape<i32>,
}

#[derive(Serialize, Deserialize)]
struct Cleaned {
    #[serde(with = "i_shape_serde", default)]
    left: Option<IntContour<i32>>,
}

#[test]
fn fields() {
    let parcel = r#"{"number":7,"boundary":[[{"x":1,"y":2}]]}"#;
    let read: Parcel = serde_json::from_str(parcel).unwrap();
    assert_eq!(serde_json::to_string(&read).unwrap(), parcel);
    for cleaned in [r#"{"left":null}"#, r#"{"left":[{"x":1,"y":2}]}"#] {
        let read: Cleaned = serde_json::from_str(cleaned).unwrap();
        assert_eq!(serde_json::to_string(&read).unwrap(), cleaned);
    }
    let without: Cleaned = serde_json::from_str("{}").unwrap();
    assert_eq!(without.left, None);
}
