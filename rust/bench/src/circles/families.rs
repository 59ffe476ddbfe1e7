//! The rows that the circle search is timed on, family by family.

use second::leading::{chain, dense, forward, order, parts, Numbering, Part, ALL, NONE};
use second::plain::Rows;
use second::random::Random;

/// So many rows a family, each drawn or shuffled anew where there is something to draw.
const EACH: usize = 64;
/// The shares of all devices that belong to a random row, one in so many.
const SHARES: [usize; 5] = [2, 4, 8, 16, 32];

/// Rows of one shape.
pub struct Family {
    pub name: String,
    /// How the devices are numbered, where that makes a difference.
    numbering: Option<Numbering>,
    pub rows: Vec<Rows>,
}

impl Family {
    /// Rows that are drawn one by one, under any numbering.
    fn drawn(name: String, mut rows: impl FnMut() -> Rows) -> Family {
        Family { name, numbering: None, rows: (0..EACH).map(|_| rows()).collect() }
    }

    /// One shape, numbered so.
    fn shaped(random: &mut Random, name: &str, rows: &Rows, numbering: Numbering) -> Family {
        let rows = (0..EACH).map(|_| numbering.of(random, rows)).collect();
        Family { name: name.to_string(), numbering: Some(numbering), rows }
    }

    /// One shape that is the same under every numbering.
    fn same(name: &str, rows: Rows) -> Family {
        Family::drawn(name.to_string(), || rows)
    }

    /// As it stands in the table.
    pub fn numbering(&self) -> &'static str {
        match self.numbering {
            Some(Numbering::Natural) => "natural",
            Some(Numbering::Reversed) => "reversed",
            Some(Numbering::Shuffled) => "shuffled",
            None => "",
        }
    }
}

/// A ring of a length, with natural numbers and with shuffled ones.
pub fn ring(random: &mut Random, length: usize) -> [Family; 2] {
    let (name, rows) = (format!("a ring of {length}"), parts(&[Part::Ring(length)]));
    let numberings = [Numbering::Natural, Numbering::Shuffled];
    numberings.map(|numbering| Family::shaped(random, &name, &rows, numbering))
}

/// All families but rings.
pub fn all(random: &mut Random) -> Vec<Family> {
    let mut families = vec![Family::same("none", NONE)];
    let shapes = [
        ("the longest path", parts(&[Part::Path(32)])),
        ("a full order", order()),
        ("a chain of 16 rings of two", chain(&[Part::Ring(2); 16])),
    ];
    for (name, rows) in shapes {
        let numbered = Numbering::EACH.map(|n| Family::shaped(random, name, &rows, n));
        families.extend(numbered);
    }
    let rings_of_two = parts(&[Part::Ring(2); 16]);
    families.push(Family::shaped(random, "16 rings of two", &rings_of_two, Numbering::Natural));
    families.push(Family::same("each device in its own", parts(&[Part::Ring(1); 32])));
    families.push(Family::same("all in each", ALL));
    for share in SHARES {
        let name = format!("random, without circles, 1/{share} of those behind");
        let no_circle = || {
            let rows = forward(random, share);
            Numbering::Shuffled.of(random, &rows)
        };
        families.push(Family::drawn(name, no_circle));
    }
    for share in SHARES {
        let name = format!("random, 1/{share} of all");
        families.push(Family::drawn(name, || dense(random, 32 / share)));
    }
    families
}
