//! The keys of polygons, by the same rule as in C, Python and SQL, made of the polygons that
//! `bench/keys/polygons.c` writes into a folder. Writes them into the file `rust` there, each
//! behind its length, and prints the seconds that they take.
//!
//! ```sh
//! cargo run --release --example keys FOLDER
//! ```

use i_shape::int::IntPoint;
use i_shape::int::canonical::CanonicalShape;
use i_shape::int::shape::IntShape;
use std::error::Error;
use std::path::Path;
use std::time::Instant;
use std::{env, fs, io};

/// The first word of a polygon's key, to which its number of rings is added.
const OF_POLYGON: u64 = 1 << 62;

fn main() -> Result<(), Box<dyn Error>> {
    let folder = env::args_os().nth(1).ok_or("usage: keys FOLDER")?;
    let folder = Path::new(&folder);
    let numbers = read(&folder.join("points"), i32::from_le_bytes)?;
    let points: Vec<_> = numbers
        .chunks_exact(2)
        .map(|xy| IntPoint::new(xy[0], xy[1]))
        .collect();
    let [rings, polygons] = ["rings", "polygons"].map(|name| read(&folder.join(name), offset));
    let (rings, polygons) = (rings?, polygons?);

    let start = Instant::now();
    let keys: Vec<_> = polygons
        .windows(2)
        .map(|ends| polygon(&points, &rings[ends[0]..=ends[1]]))
        .map(|polygon| {
            polygon
                .canonical_unoriented()
                .map_or_else(Vec::new, |form| key(&form))
        })
        .collect();
    println!("{:.3}", start.elapsed().as_secs_f64());

    let mut written = Vec::new();
    for key in keys {
        written.extend((key.len() as u64).to_le_bytes());
        written.extend(key);
    }
    Ok(fs::write(folder.join("rust"), written)?)
}

/// The items of a file, four bytes each.
fn read<T>(path: &Path, item: impl Fn([u8; 4]) -> T) -> io::Result<Vec<T>> {
    let bytes = fs::read(path)?;
    Ok(bytes
        .chunks_exact(4)
        .map(|it| item([it[0], it[1], it[2], it[3]]))
        .collect())
}

fn offset(bytes: [u8; 4]) -> usize {
    u32::from_le_bytes(bytes) as usize
}

/// The polygon whose rings lie between these offsets.
fn polygon(points: &[IntPoint<i32>], offsets: &[usize]) -> IntShape<i32> {
    offsets
        .windows(2)
        .map(|ends| points[ends[0]..ends[1]].to_vec())
        .collect()
}

/// The key of a polygon by its form: a word of 64 bits for the polygon, and then for each ring its
/// number of points and their coordinates.
fn key(form: &IntShape<i32>) -> Vec<u8> {
    let mut words = vec![OF_POLYGON + form.len() as u64];
    for ring in form {
        words.push(ring.len() as u64);
        words.extend(
            ring.iter()
                .flat_map(|at| [at.x, at.y])
                .map(|number| i64::from(number) as u64),
        );
    }
    words.iter().flat_map(|word| word.to_le_bytes()).collect()
}
