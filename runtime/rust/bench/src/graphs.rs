//! The stores that are measured; object 0 is the index.

/// A store: its graph, its sizes and its catalogue.
pub struct Graph {
    pub name: &'static str,
    pub offsets: Vec<u32>,
    pub targets: Vec<u32>,
    pub sizes: Vec<u64>,
    pub catalogue: Vec<u8>,
}

type Pairs = Vec<(u32, u32)>;

/// Drawn numbers, the same in every run: SplitMix64.
struct Rng(u64);

impl Rng {
    fn word(&mut self) -> u64 {
        self.0 = self.0.wrapping_add(0x9e37_79b9_7f4a_7c15);
        let mut z = self.0;
        z = (z ^ (z >> 30)).wrapping_mul(0xbf58_476d_1ce4_e5b9);
        z = (z ^ (z >> 27)).wrapping_mul(0x94d0_49bb_1331_11eb);
        z ^ (z >> 31)
    }

    /// From 0 to just below 1.
    fn unit(&mut self) -> f64 {
        (self.word() >> 11) as f64 / (1u64 << 53) as f64
    }

    fn below(&mut self, end: usize) -> usize {
        (self.unit() * end as f64) as usize
    }

    /// Below `end`, with a power law: few numbers are drawn often.
    fn skewed(&mut self, end: usize, power: i32) -> usize {
        (self.unit().powi(power) * end as f64) as usize
    }
}

fn words(all: &[u32]) -> impl Iterator<Item = u8> + '_ {
    all.iter().flat_map(|word| word.to_le_bytes())
}

fn record(catalogue: &mut Vec<u8>, length: u16, kind: u16, contents: impl Iterator<Item = u8>) {
    catalogue.extend(length.to_le_bytes());
    catalogue.extend(kind.to_le_bytes());
    catalogue.extend(contents);
}

impl Graph {
    fn new(name: &'static str, n: usize, pairs: Pairs) -> Self {
        let sizes: Vec<u64> = (0..n as u64).map(|v| 1_000 + v * 7_919 % 1_000_000).collect();
        let mut catalogue = Vec::new();
        record(&mut catalogue, 16, 1, words(&[n as u32, pairs.len() as u32, 0]));
        sizes.iter().for_each(|size| record(&mut catalogue, 12, 2, size.to_le_bytes().into_iter()));
        pairs.iter().for_each(|&(from, to)| record(&mut catalogue, 12, 3, words(&[from, to])));

        let mut graph = Graph { name, offsets: vec![0; n + 1], targets: vec![0; pairs.len()], sizes, catalogue };
        let mut sizes = vec![0; n];
        let (offsets, targets) = (&mut graph.offsets, &mut graph.targets);
        reference::read(&graph.catalogue, offsets, targets, &mut sizes, &mut [0; reference::STARTS]).expect("a store");
        graph
    }

    pub fn n(&self) -> usize {
        self.sizes.len()
    }

    pub fn m(&self) -> usize {
        self.targets.len()
    }
}

/// Every reference from any object to any.
pub fn uniform(n: usize, m: usize) -> Graph {
    let mut rng = Rng(1);
    let pairs = (0..m).map(|_| (rng.below(n) as u32, rng.below(n) as u32)).collect();
    Graph::new("uniform", n, pairs)
}

/// Few objects have most of the references, and few are named by most of them.
fn power_law(n: usize, m: usize) -> Graph {
    let mut rng = Rng(2);
    let pairs = (0..m).map(|_| (rng.skewed(n, 3) as u32, rng.skewed(n, 2) as u32)).collect();
    Graph::new("power law", n, pairs)
}

/// Every object refers to the next.
fn chain(n: usize) -> Graph {
    Graph::new("chain", n, (1..n as u32).map(|v| (v - 1, v)).collect())
}

/// The index refers to every object.
fn star(n: usize) -> Graph {
    Graph::new("star", n, (1..n as u32).map(|v| (0, v)).collect())
}

/// Like a container registry: an index of images, a manifest per platform, each with a configuration of
/// its own and ten shared layers. A tenth of the manifests hangs on no image any more.
fn layered(n: usize) -> Graph {
    let mut rng = Rng(3);
    let (images, manifests) = (n / 16, n / 5);
    let configurations = 1 + images + manifests;
    let layers = configurations + manifests;
    let mut pairs: Pairs = (1..=images).map(|image| (0, image as u32)).collect();
    for i in 0..manifests {
        let manifest = (1 + images + i) as u32;
        if i % 10 != 0 {
            pairs.push(((1 + i % images) as u32, manifest));
        }
        pairs.push((manifest, (configurations + i) as u32));
        pairs.extend((0..10).map(|_| (manifest, (layers + rng.skewed(n - layers, 2)) as u32)));
    }
    Graph::new("layered", n, pairs)
}

/// One of each kind, with so many objects and, where these are drawn, references.
fn of_size(n: usize, m: usize) -> Vec<Graph> {
    vec![uniform(n, m), power_law(n, m), chain(n), star(n), layered(n)]
}

pub fn all() -> Vec<Graph> {
    of_size(reference::MOST_OBJECTS, reference::MOST_REFERENCES)
}

pub fn small() -> Vec<Graph> {
    of_size(1_000, 16_000)
}
