//! The least and the greatest value of each block of 64 rows, and a tree over these.

pub const BLOCK: usize = 64;

/// The least and the greatest of no values.
pub const NOTHING: (i64, i64) = (i64::MAX, i64::MIN);

fn join(a: (i64, i64), b: (i64, i64)) -> (i64, i64) {
    (a.0.min(b.0), a.1.max(b.1))
}

#[derive(Debug)]
pub struct Blocks {
    /// The nodes of the tree: the root at 1, the leaves in the second half.
    nodes: Vec<(i64, i64)>,
}

impl Blocks {
    pub fn new() -> Blocks {
        Blocks {
            nodes: vec![NOTHING; 2],
        }
    }

    pub fn all(&self) -> (i64, i64) {
        self.nodes[1]
    }

    #[inline]
    pub fn get(&self, block: usize) -> (i64, i64) {
        let leaves = self.nodes.len() / 2;
        if block < leaves {
            self.nodes[leaves + block]
        } else {
            NOTHING
        }
    }

    #[inline]
    pub fn add(&mut self, block: usize, value: i64) {
        let old = self.get(block);
        let new = join(old, (value, value));
        if new != old {
            self.set(block, new);
        }
    }

    #[inline]
    pub fn set(&mut self, block: usize, value: (i64, i64)) {
        while block >= self.nodes.len() / 2 {
            self.double();
        }
        let mut node = self.nodes.len() / 2 + block;
        self.nodes[node] = value;
        while node > 1 {
            node /= 2;
            let both = join(self.nodes[2 * node], self.nodes[2 * node + 1]);
            if self.nodes[node] == both {
                return;
            }
            self.nodes[node] = both;
        }
    }

    fn double(&mut self) {
        let leaves = self.nodes.len() / 2;
        let mut nodes = vec![NOTHING; 4 * leaves];
        nodes[2 * leaves..3 * leaves].copy_from_slice(&self.nodes[leaves..]);
        for node in (1..2 * leaves).rev() {
            nodes[node] = join(nodes[2 * node], nodes[2 * node + 1]);
        }
        self.nodes = nodes;
    }
}
