//! Values of variables for choices.rs, so few different ones that indices and
//! arguments are often equal.

use crate::openlowering::{Given, Lowering};
use crate::openrows::Graph;
use crate::plain::ones;
use crate::random::Random;

/// u, p and q.
pub fn draw(random: &mut Random, lowering: &Lowering) -> Given {
    let pool = pool(random, lowering);
    Given {
        source: any(random, &lowering.source, &pool),
        target: any(random, &lowering.target, &pool),
    }
}

/// The same u with p and q drawn anew.
pub fn redraw(random: &mut Random, lowering: &Lowering, given: &Given) -> Given {
    let mut new = draw(random, lowering);
    for &[row, _] in &lowering.mapped {
        new.source[row] = given.source[row];
    }
    new
}

/// Two to four words: edges, small ones, constants of the source.
fn pool(random: &mut Random, lowering: &Lowering) -> Vec<u64> {
    let mut words = vec![
        0,
        0,
        1,
        1,
        1,
        u64::MAX,
        2,
        random.below(8),
        random.below(256),
    ];
    words.extend(lowering.source.constants());
    let count = random.pick(&[2, 2, 3, 4]);
    (0..count).map(|_| random.pick(&words)).collect()
}

/// A word of the pool for each variable, cut to its width.
fn any(random: &mut Random, graph: &Graph, pool: &[u64]) -> Vec<u64> {
    let mut values = vec![0; graph.rows.len()];
    for row in graph.variables() {
        values[row] = random.pick(pool) & ones(graph.shape.widths[row]);
    }
    values
}
