//! What is timed: the library with all cuts, with one of them switched, and the independent algorithms. All count and none stores.
use kadvisk::{Cuts, Refusal};
use outside::{cliques, fp};

#[derive(Clone, Copy, PartialEq, Eq)]
pub enum Variant {
    All,
    CoreOff,
    PairsOff,
    ReachOff,
    SecondOn,
    SecondInstead,
    PartedOff,
    ExtensionOff,
    PivotOff,
    Published,
    Cliques,
}

use Variant::*;

pub const VARIANTS: [Variant; 11] = [All, CoreOff, PairsOff, ReachOff, SecondOn, SecondInstead, PartedOff, ExtensionOff, PivotOff, Published, Cliques];

impl Variant {
    /// Its head in the table.
    pub fn head(self) -> &'static str {
        match self {
            All => "all cuts, ms",
            CoreOff => "core off",
            PairsOff => "pairs off",
            ReachOff => "reach off",
            SecondOn => "second on",
            SecondInstead => "second instead",
            PartedOff => "partition off",
            ExtensionOff => "extension off",
            PivotOff => "pivot off",
            Published => "fp",
            Cliques => "BK",
        }
    }

    /// Is it an independent implementation?
    pub fn is_rival(self) -> bool {
        matches!(self, Published | Cliques)
    }

    fn cuts(self) -> Cuts {
        let all = Cuts::default();
        match self {
            CoreOff => Cuts { core: false, ..all },
            PairsOff => Cuts { pairs: false, ..all },
            ReachOff => Cuts { pairs: false, reach: false, ..all },
            SecondOn => Cuts { second: true, ..all },
            SecondInstead => Cuts { second: true, parted: false, ..all },
            PartedOff => Cuts { parted: false, ..all },
            ExtensionOff => Cuts { extension: false, ..all },
            PivotOff => Cuts { pivot: false, ..all },
            _ => all,
        }
    }

    /// How many maximal k-plexes of at least q vertices this variant finds.
    pub fn count(self, rows: &[u64], k: usize, q: usize) -> usize {
        let mut found = 0;
        match self {
            Published => {
                fp::run(rows, k, q, &mut |_| found += 1);
                found
            }
            Cliques => {
                cliques::run(rows, q, &mut |_| found += 1);
                found
            }
            _ => match kadvisk::list_with(rows, k, q, 0, self.cuts(), &mut []) {
                Ok(m) | Err(Refusal::Slots(m)) => m,
                Err(refusal) => panic!("{refusal}"),
            },
        }
    }
}
