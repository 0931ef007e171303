//! Collections.

use std::collections::*;

fn main() {
    let mut m = HashMap::new();
    for w in "the quick brown fox jumps over the lazy dog and the other fox".split(' ') {
        *m.entry(w).or_insert(0) += 1;
    }
    let mut v: Vec<_> = m.iter().collect();
    v.sort();
    println!("{v:?}");
    let s: HashSet<u32> = (0..1000).map(|x| x % 37).collect();
    println!("{}", s.len());
    let b: BTreeMap<_, _> = m.into_iter().collect();
    println!("{b:?}");
    let mut h = BinaryHeap::from(vec![3, 1, 4, 1, 5]);
    print!("{:?} ", h.pop());
    println!("{:?}", h.into_sorted_vec());
    let mut d: VecDeque<_> = (0..5).collect();
    d.rotate_left(2);
    println!("{d:?}");
}
