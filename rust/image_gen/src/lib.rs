//! Generates images that no rule refuses, each from a kind and a seed; but in some images of some kinds two allocations may
//! share a base (12). [`damaged`] breaks them, and [`lent`](lent()) makes records of them, most of which break a rule.
//!
//! ```
//! use image_gen::{Kind, generate};
//!
//! assert_eq!(generate(Kind::Dense, 7), generate(Kind::Dense, 7));
//! ```

mod causes;
mod charts;
mod crossings;
mod damaged;
pub mod extremes;
mod full_pages;
mod large;
mod lent;
pub mod lifetimes;
pub mod rings;
mod rng;
pub mod shape;
mod small;

pub use damaged::damaged;
pub use extremes::Size;
pub use lent::{Lent, known, lent};
use rings::Rings;
pub use rng::Rng;
use sir_image::Image;

macro_rules! kinds {
    ($($(#[$doc:meta])* $name:ident)*) => {
        /// Kinds of images.
        #[derive(Clone, Copy, Debug, PartialEq, Eq)]
        pub enum Kind { $($(#[$doc])* $name),* }

        impl Kind {
            /// Every kind.
            pub const ALL: &[Kind] = &[$(Kind::$name),*];
        }
    };
}

kinds! {
    /// Few locals, all codes and controls.
    Dense
    /// Edges back, with inputs that loops carry.
    Loops
    /// Cycles that are entered in two places.
    Irreducible
    /// Switches with and without targets and fallback, over shared runs of targets.
    Switches
    /// Calls, recursion.
    Calls
    /// Blocks that functions share, and blocks that none visits.
    Shared
    /// Operation ranges and operand runs that overlap.
    Overlapping
    /// Many allocations and deriving operations, so that reaches meet.
    Meetings
    /// Bases that are inputs or outputs of blocks too.
    Bases
    /// Deriving chains over edges.
    Chains
    /// Allocations that stay unmarked.
    Lives
    /// Anything.
    Mixed
    /// Such as a front end writes: 20 to 60 blocks.
    Typical
    /// The same, with allocations that mostly stay unmarked.
    TypicalLives
    /// All counts at or near their limits.
    FullSize
    /// The same, with allocations that stay unmarked.
    FullLives
    /// Ranges that span all there is, on a small scale.
    SmallSpanning
    /// Rings of renamed locals, on a small scale.
    SmallRings
    /// Many allocations in many blocks, on a small scale.
    SmallAllocating
    /// Blocks that hand on all locals in another order, on a small scale.
    SmallRenaming
    /// Unmarked allocations whose intervals touch, overlap, or meet only where there is no operation.
    Crossings
    /// Logs with pointers as offset, as size and as topics.
    Topics
    /// Words that just fill their pages, and words that are one more than that.
    FullPages
    /// Allocations that are marked for one cause or for several, with pointers that go through bases of others.
    Causes
    /// Charts whose lines just fill their sheets, or are one more or one fewer, and whose allocations do so with a series.
    Charts
    /// The same with up to 512 allocations.
    FullCharts
}

impl Kind {
    /// Kinds of small images, on which plain code is quick.
    pub const SMALL: &[Kind] = &[
        Kind::Dense,
        Kind::Loops,
        Kind::Irreducible,
        Kind::Switches,
        Kind::Calls,
        Kind::Shared,
        Kind::Overlapping,
        Kind::Meetings,
        Kind::Bases,
        Kind::Chains,
        Kind::Lives,
        Kind::Mixed,
        Kind::Crossings,
        Kind::Topics,
        Kind::FullPages,
        Kind::Causes,
        Kind::Charts,
    ];

    /// Kinds of large images, on which plain code still ends.
    pub const LARGE: &[Kind] = &[
        Kind::Typical,
        Kind::TypicalLives,
        Kind::FullSize,
        Kind::FullLives,
        Kind::SmallSpanning,
        Kind::SmallRings,
        Kind::SmallAllocating,
        Kind::SmallRenaming,
        Kind::FullCharts,
    ];
}

/// The image of a kind and a seed.
pub fn generate(kind: Kind, seed: u64) -> Image {
    let rng = &mut Rng::new(seed ^ ((kind as u64 + 1) << 56));
    match kind {
        Kind::Dense => shape::image(&small::DENSE, rng),
        Kind::Loops => small::loops(rng),
        Kind::Irreducible => small::irreducible(rng),
        Kind::Switches => shape::image(&small::SWITCHES, rng),
        Kind::Calls => shape::image(&small::CALLS, rng),
        Kind::Shared => shape::image(&small::SHARED, rng),
        Kind::Overlapping => shape::image(&small::OVERLAPPING, rng),
        Kind::Meetings => shape::image(&small::MEETINGS, rng),
        Kind::Bases => shape::image(&small::BASES, rng),
        Kind::Chains => shape::image(&small::CHAINS, rng),
        Kind::Lives => small::lives(rng),
        Kind::Mixed => small::mixed(rng),
        Kind::Typical => large::typical(rng),
        Kind::TypicalLives => large::typical_lives(rng),
        Kind::FullSize => large::full_size(rng),
        Kind::FullLives => large::full_lives(rng),
        Kind::SmallSpanning => large::small_spanning(rng),
        Kind::SmallRings => large::small_rings(rng),
        Kind::SmallAllocating => large::small_allocating(rng),
        Kind::SmallRenaming => large::small_renaming(rng),
        Kind::Crossings => crossings::image(rng),
        Kind::Topics => lifetimes::image(&small::TOPICS, rng),
        Kind::FullPages => full_pages::image(rng),
        Kind::Causes => causes::image(rng),
        Kind::Charts => charts::image(&charts::SMALL, rng),
        Kind::FullCharts => charts::image(&charts::LARGE, rng),
    }
}

/// The slowest of the legal images of a size, by name.
pub fn worst(size: Size) -> Vec<(&'static str, Image)> {
    let rng = &mut Rng::new(0);
    vec![
        ("every block all operations, every call all operands", extremes::spanning(size, false, rng)),
        ("the same, and every call defines all locals", extremes::spanning(size, true, rng)),
        ("allocations that meet", extremes::allocating(size, rng)),
        ("allocations that live in every block", extremes::long_lived(size, rng)),
        ("every block all locals in and out, and all edges", extremes::renaming(size, rng)),
        ("a ring", rings::image(Rings { rings: 1, ..Rings::most(size) })),
        ("rings", rings::image(Rings::most(size))),
        ("rings, many edges from each", rings::image(Rings::wide(size))),
        ("rings, many edges to each", rings::image(Rings::fed(size))),
        ("the longest chart", extremes::charted(size)),
    ]
}
