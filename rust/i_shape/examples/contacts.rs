//! Edges of a contour that cross.

use i_shape::int::contacts::ContourContacts;
use i_shape::int_path;

fn main() {
    let bow_tie = int_path![[0_i32, 0], [4, 4], [4, 0], [0, 4]];
    println!("a simple polygon: {}", bow_tie.is_simple_polygon());
    let contacts = bow_tie.contacts();
    for (contact, kind) in contacts.iter().zip(bow_tie.kinds_of_contacts(&contacts)) {
        if let Some(kind) = kind {
            println!("edges {} and {}: {kind:?}", contact.first, contact.second);
        }
    }
}
