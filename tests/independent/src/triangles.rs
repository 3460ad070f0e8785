//! Check 7: no h(a,c) is above h(a,b) + h(b,c). The desk passes over the inner
//! sweeps that cannot fail (order 5 of document 02); the plain sweep, which reads
//! all triples, is kept to be held against it.
//!
//! Both count the triples (a,b,c) that they compare, in the same way: an inner
//! sweep, by all c of one a and b, goes to its end, also past a triple that fails;
//! the first one in which a triple fails is the last. So the plain sweep compares
//! n * n * n triples of a table that passes.

/// What a sweep came to.
#[derive(Clone, Copy, Debug, PartialEq, Eq)]
pub struct Sweep {
    pub holds: bool,
    /// How many triples were compared.
    pub triples: usize,
}

/// All inner sweeps.
pub fn plain(n: usize, estimates: &[u32]) -> Sweep {
    let mut triples = 0;
    for from_a in estimates.chunks_exact(n) {
        for (&ab, from_b) in from_a.iter().zip(estimates.chunks_exact(n)) {
            triples += n;
            if !hold_by(from_a, ab, from_b) {
                return Sweep {
                    holds: false,
                    triples,
                };
            }
        }
    }
    Sweep {
        holds: true,
        triples,
    }
}

/// The inner sweeps that can fail: "Where h(a,b) is at least the largest estimate
/// in row a, no c can fail". Neither can one where b is a, since check 5 has seen
/// that h(a,a) is 0.
pub fn passing_over(n: usize, estimates: &[u32]) -> Sweep {
    let mut triples = 0;
    for (a, from_a) in estimates.chunks_exact(n).enumerate() {
        let largest = from_a.iter().fold(0, |largest, &h| h.max(largest));
        let by_b = from_a.iter().zip(estimates.chunks_exact(n)).enumerate();
        for (_, (&ab, from_b)) in by_b.filter(|&(b, (&ab, _))| b != a && ab < largest) {
            triples += n;
            if !hold_by(from_a, ab, from_b) {
                return Sweep {
                    holds: false,
                    triples,
                };
            }
        }
    }
    Sweep {
        holds: true,
        triples,
    }
}

/// Whether h(a,c) <= h(a,b) + h(b,c) for all c. The sums fit 32 bits, since no
/// estimate is above 255,000,000. The loop runs to its end, so that it can be made
/// into vector instructions.
fn hold_by(from_a: &[u32], ab: u32, from_b: &[u32]) -> bool {
    let pairs = from_a.iter().zip(from_b);
    !pairs.fold(false, |broken, (&ac, &bc)| broken | (ac > ab + bc))
}
