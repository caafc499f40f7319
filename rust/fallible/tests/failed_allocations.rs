//! What the shim does where an allocation fails, beside the contracts of Rattle's std.

use fallible::alloc::Global;
use fallible::{String, Unsigned as _, Vec};
use std::alloc::{GlobalAlloc, Layout, System};
use std::cell::Cell;
use std::fmt::Debug;
use std::ops::Deref;
use std::ptr;

thread_local! {
    /// How many more allocations this thread is given.
    static LEFT: Cell<usize> = const { Cell::new(usize::MAX) };
}

struct Failing;

#[global_allocator]
static ALLOCATOR: Failing = Failing;

fn fails_now() -> bool {
    let left = LEFT.get();
    LEFT.set(left.saturating_sub(usize::from(left != usize::MAX)));
    left == 0
}

// SAFETY: the system's, or null.
unsafe impl GlobalAlloc for Failing {
    unsafe fn alloc(&self, layout: Layout) -> *mut u8 {
        if fails_now() {
            ptr::null_mut()
        } else {
            unsafe { System.alloc(layout) }
        }
    }

    unsafe fn realloc(&self, at: *mut u8, layout: Layout, size: usize) -> *mut u8 {
        if fails_now() {
            ptr::null_mut()
        } else {
            unsafe { System.realloc(at, layout, size) }
        }
    }

    unsafe fn dealloc(&self, at: *mut u8, layout: Layout) {
        unsafe { System.dealloc(at, layout) }
    }
}

/// What the call returns where it is given so many allocations.
fn given<R>(allocations: usize, call: impl FnOnce() -> R) -> R {
    LEFT.set(allocations);
    let result = call();
    LEFT.set(usize::MAX);
    result
}

/// A list of `0..len` without more room.
fn full(len: usize) -> Vec<usize> {
    let list = Vec::from_slice(Global, &std::vec::Vec::from_iter(0..len)).expect("memory");
    assert_eq!((list.len(), list.capacity()), (len, len));
    list
}

/// The call fails where an allocation does, and leaves a list of `0..7` as it was; given it, it leaves these items.
fn fails_without_memory<E: Debug>(
    items: &[usize],
    mut call: impl FnMut(&mut Vec<usize>) -> Result<(), E>,
) {
    let mut list = full(7);
    let block = list.as_ptr();
    assert!(given(0, || call(&mut list)).is_err());
    assert_eq!((list.as_ptr(), list.capacity()), (block, 7));
    assert_eq!(list, full(7));
    assert!(given(1, || call(&mut list)).is_ok());
    assert_eq!(list[..], *items);
}

#[test]
fn a_failed_growth_leaves_the_list_as_it_was() {
    fails_without_memory(&[0, 1, 2, 3, 4, 5, 6, 9], |list| list.push(9));
    fails_without_memory(&[0, 1, 2, 9, 3, 4, 5, 6], |list| list.insert(3, 9));
    fails_without_memory(&[0, 1, 2, 3, 4, 5, 6], |list| list.reserve(1));
    fails_without_memory(&[0, 1, 2, 3, 4, 5, 6, 8, 9], |list| {
        list.extend_from_slice(&[8, 9])
    });
}

/// The calls that take no memory keep what there is.
#[test]
fn items_go_as_from_rusts_own() {
    let mut list = full(9);
    let block = list.as_ptr();
    assert_eq!(list.pop(), Some(8));
    assert_eq!(list.remove(1), 1);
    list.retain(|item| item % 3 != 0);
    assert_eq!(list[..], [2, 4, 5, 7]);
    list.slice_mut(1..3).reverse();
    list.truncate(3);
    assert_eq!(list[..], [2, 5, 4]);
    list.clear();
    assert_eq!((list.pop(), list.len()), (None, 0));
    assert_eq!((list.as_ptr(), list.capacity()), (block, 9));
}

#[test]
fn no_length_overflows() {
    let mut list = full(7);
    assert!(list.reserve(usize::MAX).is_err());
    assert!(Vec::<usize>::with_capacity(Global, usize::MAX / 8).is_err());
    assert_eq!(list, full(7));
}

#[test]
fn an_item_that_finds_no_room_comes_back() {
    let mut list = full(2);
    assert_eq!(given(0, || list.push(5)).expect_err("no room").value, 5);
    assert_eq!(
        given(0, || list.insert(0, 6)).expect_err("no room").value,
        6
    );
}

#[test]
fn what_has_room_takes_no_memory() {
    let mut list = Vec::with_capacity(Global, 4).expect("memory");
    given(0, || {
        list.push(1).expect("room");
        list.insert(0, 0).expect("room");
        list.push_reserved(2);
        list.extend_from_slice(&[3]).expect("room");
        list.reserve(0).expect("room");
    });
    assert_eq!(list[..], [0, 1, 2, 3]);
    assert_eq!(list.capacity(), 4);
}

/// Without room for all, none is appended.
#[test]
fn room_for_a_part_takes_no_part() {
    let mut list = Vec::with_capacity(Global, 4).expect("memory");
    list.extend_from_slice(&[0, 1, 2]).expect("room");
    assert!(given(0, || list.extend_from_slice(&[3, 4])).is_err());
    assert_eq!((&list[..], list.capacity()), (&[0, 1, 2][..], 4));

    let mut text = String::from_str(Global, "contours").expect("memory");
    text.push('!').expect("memory");
    assert!(text.capacity() > 9);
    let more = "x".repeat(text.capacity() - 8);
    assert!(given(0, || text.push_str(&more)).is_err());
    assert_eq!(text.as_str(), "contours!");
}

#[test]
fn an_item_is_put_between_others() {
    let mut list = full(4);
    list.insert(1, 8).expect("memory");
    list.insert(5, 9).expect("memory");
    assert_eq!(list[..], [0, 8, 1, 2, 3, 9]);
}

/// One growth doubles the room at least, so many pushes take few.
#[test]
fn growth_doubles_the_room() {
    let calls: [fn(&mut Vec<usize>); 4] = [
        |list| list.push(9).expect("memory"),
        |list| list.insert(3, 9).expect("memory"),
        |list| list.reserve(1).expect("memory"),
        |list| list.extend_from_slice(&[9]).expect("memory"),
    ];
    for call in calls {
        let mut list = full(100);
        call(&mut list);
        assert_eq!(list.capacity(), 200);
    }
    let mut text = String::from_str(Global, &"x".repeat(100)).expect("memory");
    text.push_str("x").expect("memory");
    assert_eq!(text.capacity(), 200);
}

/// Neither lends Rust's own, which grows without an error.
#[test]
fn a_list_lends_a_slice_and_a_text_a_str() {
    fn lends<L: Deref<Target = T>, T: ?Sized>() {}
    lends::<Vec<usize>, [usize]>();
    lends::<String, str>();
}

#[test]
#[should_panic]
fn push_reserved_never_grows() {
    full(3).push_reserved(3);
}

#[test]
fn made_lists_hold_their_items_or_none_is_made() {
    let made = [
        || Vec::from_slice(Global, &[4, 4]),
        || Vec::from_clones(Global, &[4, 4]),
        || Vec::from_array(Global, [4, 4]),
        || Vec::from_elem(Global, 4, 2),
    ];
    for make in made {
        assert!(given(0, make).is_err());
        let list = given(1, make).expect("memory");
        assert_eq!((&list[..], list.capacity()), (&[4, 4][..], 2));
    }
    assert!(given(0, || Vec::<u8>::from_elem(Global, 4, 0)).is_ok());
    assert!(given(0, || Vec::<u8>::with_capacity(Global, 0)).is_ok());
}

/// Each of its allocations can fail, and the list stays. More than 20 items take one allocation more.
#[test]
fn a_failed_sort_leaves_the_list_as_it_was() {
    for (len, allocations) in [(0, 0), (1, 0), (2, 2), (20, 2), (21, 3), (50, 3)] {
        let mut list = full(len);
        for few in 0..allocations {
            assert!(
                given(few, || list.sort_by_cached_key(|item| item % 3)).is_err(),
                "{len} of {few}"
            );
            assert_eq!(list, full(len));
        }
        let mut keys = 0;
        let key = |item: &usize| {
            keys += 1;
            item % 3
        };
        assert!(given(allocations, || list.sort_by_cached_key(key)).is_ok());
        assert_eq!(keys, if len < 2 { 0 } else { len });
        let mut sorted = std::vec::Vec::from_iter(0..len);
        sorted.sort_by_key(|item| item % 3);
        assert_eq!(list[..], sorted);
    }
}

#[test]
fn bits_stay_in_an_unsigned_number() {
    assert_eq!((-2_i128).to_unsigned(), u128::MAX - 1);
    assert_eq!(i128::MAX.to_unsigned(), u128::MAX >> 1);
}

#[test]
fn a_failed_growth_leaves_the_text_as_it_was() {
    let mut text = String::from_str(Global, "contours").expect("memory");
    assert_eq!(text.capacity(), 8);
    assert!(given(0, || text.push('!')).is_err());
    assert!(given(0, || text.push_str("!")).is_err());
    assert!(given(0, || text.write_fmt(format_args!("{}", 1))).is_err());
    assert_eq!(text.as_str(), "contours");
    assert!(given(0, || String::from_str(Global, "text")).is_err());
    text.write_fmt(format_args!(" {}{}", 1, 'ß'))
        .expect("memory");
    text.push('é').expect("memory");
    assert_eq!(text.as_str(), "contours 1ßé");
}
