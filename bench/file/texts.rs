// Controllers whose files have a wanted size. Their numbers come from a generator, and they break no rule of the format.
use crate::fractions::{Fast, Frac, Rules};
use crate::plain::{Axis, Cert, Controller, Law, Node, Plant, Row, put_count, put_integers, put_line, put_node, put_plant};

struct Random(u64);

impl Random {
    fn next(&mut self) -> u64 {
        self.0 = self.0.wrapping_add(0x9e37_79b9_7f4a_7c15);
        let x = (self.0 ^ self.0 >> 30).wrapping_mul(0xbf58_476d_1ce4_e5b9);
        let x = (x ^ x >> 27).wrapping_mul(0x94d0_49bb_1331_11eb);
        x ^ x >> 31
    }

    fn below(&mut self, limit: u64) -> u64 {
        self.next() % limit
    }

    /// A number from 1 on, whose sizes are spread over those below the limit.
    fn size(&mut self, limit: u64) -> i128 {
        let least = self.below(limit) + 1;
        (self.below(least) + 1) as i128
    }

    fn positive(&mut self) -> Frac {
        Fast::new(self.size(1_000_000), if self.below(2) == 0 { 1 } else { self.size(60) })
    }

    fn fraction(&mut self) -> Frac {
        let x = self.positive();
        if self.below(2) == 0 { Frac { num: -x.num, den: x.den } } else { x }
    }

    fn fractions(&mut self, count: usize) -> Vec<Frac> {
        (0..count).map(|_| self.fraction()).collect()
    }

    /// So many numbers from 1 to `most`, rising.
    fn rising(&mut self, count: u64, most: u64) -> Vec<u64> {
        let mut left = count.min(most);
        let mut found = Vec::new();
        for k in 1..=most {
            if self.below(most - k + 1) < left {
                found.push(k);
                left -= 1;
            }
        }
        found
    }

    fn cert(&mut self, count: u64, most: u64) -> Cert {
        self.rising(count, most).into_iter().map(|k| (k, self.fraction())).collect()
    }
}

fn whole(num: i128) -> Frac {
    Frac { num, den: 1 }
}

fn identity(size: usize) -> Vec<Frac> {
    (0..size * size).map(|k| whole((k / size == k % size) as i128)).collect()
}

/// A plant with so many rows a step, and an offset where that is wanted.
fn plant(random: &mut Random, [n, p, steps, rows]: [usize; 4], offset: bool) -> Plant {
    let matrices = [random.fractions(n * n), random.fractions(n * p), identity(n), identity(p), identity(n)];
    let shift = |count| (0..count).map(|k| whole((offset && k == 0) as i128)).collect();
    let (drift, goal) = (shift(n), shift(n + p));
    let rows = (0..rows).map(|_| random.fractions(n + p + 1)).collect();
    let last = vec![random.fractions(n + 1)];
    let grid = (0..n).map(|_| Axis { low: random.fraction(), step: random.positive(), count: 1000 }).collect();
    Plant { n, p, steps, matrices, drift, goal, rows, last, grid }
}

/// The different rows of splits: this one's number is told by its first weights.
fn plane(random: &mut Random, n: usize, number: usize) -> Row {
    let k = number as i128;
    let weights = [k, -k - 1, 3, random.size(1000)];
    if n == 1 { Row { a: vec![1], b: k } } else { Row { a: weights[..n].to_vec(), b: random.size(1_000_000) } }
}

/// The row of a split: half of them come again.
fn row(random: &mut Random, n: usize, planes: &mut Vec<Row>) -> Row {
    if planes.is_empty() || random.below(2) == 0 {
        let new = plane(random, n, planes.len() + 1);
        planes.push(new.clone());
        return new;
    }
    planes[random.below(planes.len() as u64) as usize].clone()
}

fn law(random: &mut Random, plant: &Plant, members: u64, mut form: impl FnMut(&mut Random) -> Vec<Frac>) -> Law {
    let set: Vec<u32> = random.rising(members, plant.row_count() as u64).into_iter().map(|k| k as u32).collect();
    let moves = (0..plant.unknowns()).flat_map(|_| form(random)).collect();
    let mults = (0..set.len()).flat_map(|_| form(random)).collect();
    Law { set, moves, mults }
}

/// The leaf of a law, or of none, at a depth.
fn leaf(random: &mut Random, plant: &Plant, laws: usize, depth: u64) -> Node {
    let (cell, rows) = (2 * plant.n as u64 + depth, plant.row_count() as u64);
    if random.below(8) == 0 {
        let count = random.below(6);
        return Node::NoMove { cert: random.cert(count, cell + rows) };
    }
    let law = random.below(laws as u64) as u32 + 1;
    let certs = (0..rows)
        .map(|_| {
            let count = random.below(5) + 1;
            random.cert(count, cell + 1)
        })
        .collect();
    Node::Law { law, certs }
}

/// A tree of so many leaves, each about as deep as the others.
fn grow(random: &mut Random, controller: &mut Controller, planes: &mut Vec<Row>, leaves: usize, depth: u64) {
    if leaves == 1 {
        let leaf = leaf(random, &controller.plant, controller.laws.len(), depth);
        controller.nodes.push(leaf);
        return;
    }
    let row = row(random, controller.plant.n, planes);
    controller.nodes.push(Node::Split(row));
    grow(random, controller, planes, leaves / 2, depth + 1);
    grow(random, controller, planes, leaves - leaves / 2, depth + 1);
}

/// A tree of so many leaves over half as many laws, some of whose forms come again.
pub fn balanced(leaves: usize, offset: bool) -> Controller {
    let random = &mut Random(leaves as u64);
    let plant = plant(random, [2, 1, 4, 3], offset);
    let mut known: Vec<Vec<Frac>> = Vec::new();
    let mut form = |random: &mut Random| {
        if known.len() < 4 || random.below(4) != 0 {
            known.push(random.fractions(3));
            return known[known.len() - 1].clone();
        }
        known[random.below(known.len() as u64) as usize].clone()
    };
    let laws = (0..leaves.div_ceil(2))
        .map(|_| {
            let members = random.below(5);
            law(random, &plant, members, &mut form)
        })
        .collect();
    let mut controller = Controller { plant, laws, nodes: Vec::new() };
    grow(random, &mut controller, &mut Vec::new(), leaves, 0);
    controller
}

/// About so many forms, all different and in no order; where that is wanted the last of five long numbers alone tells them from one another.
pub fn different(forms: usize, long: bool) -> Controller {
    const LONG: i128 = 123_456_789_012_345_678_901_234_567_890;
    // an odd number: its multiples by fewer than 2^32 are different
    const STEP: u32 = 0x9e37_79b1;
    let random = &mut Random(forms as u64);
    let plant = plant(random, [4, 2, 3, 4], false);
    let mut last: u32 = 0;
    let mut form = |random: &mut Random| {
        last = last.wrapping_add(STEP);
        let own = i128::from(last);
        if long { vec![whole(LONG), whole(LONG), whole(-LONG), whole(LONG), whole(LONG + own)] } else { [vec![whole(own)], random.fractions(4)].concat() }
    };
    let laws = (0..forms.div_ceil(12)).map(|_| law(random, &plant, 6, &mut form)).collect();
    let mut controller = Controller { plant, laws, nodes: Vec::new() };
    grow(random, &mut controller, &mut Vec::new(), 4, 0);
    controller
}

/// So many splits one below the other, and two leaves below all of them, whose certificates weigh every row.
pub fn chain(splits: usize) -> Controller {
    let random = &mut Random(splits as u64);
    let plant = plant(random, [2, 1, 1, 9], false);
    let laws = vec![law(random, &plant, 1, |random| random.fractions(3))];
    let mut nodes: Vec<Node> = (1..=splits).map(|k| Node::Split(plane(random, 2, k))).collect();
    let rows = 2 * plant.n as u64 + splits as u64 + 1;
    for _ in 0..2 {
        let certs = (0..plant.row_count()).map(|_| random.cert(rows, rows)).collect();
        nodes.push(Node::Law { law: 1, certs });
    }
    nodes.extend((1..splits).map(|_| Node::NoMove { cert: Vec::new() }));
    Controller { plant, laws, nodes }
}

/// The file in version 1 or 2, where forms and rows are written out.
pub fn written(controller: &Controller, version: u64) -> Vec<u8> {
    let mut out = Vec::new();
    put_plant(&controller.plant, version, &mut out);
    put_count("laws", controller.laws.len(), &mut out);
    for law in &controller.laws {
        put_integers("law", &law.set, &mut out);
        law.moves.chunks(controller.plant.n + 1).for_each(|form| put_line("move", form, &mut out));
        law.mults.chunks(controller.plant.n + 1).for_each(|form| put_line("mult", form, &mut out));
    }
    out.extend_from_slice(b"tree\n");
    for node in &controller.nodes {
        put_node(node, &mut out, |row, out| put_integers("split", row.a.iter().chain([&row.b]), out));
    }
    out.extend_from_slice(b"end\n");
    out
}
