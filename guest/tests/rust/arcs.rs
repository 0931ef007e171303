//! Counted references among threads, weak ones, and cycles.

use std::sync::{Arc, Mutex, Weak};
use std::thread;

struct Node {
    v: u32,
    parent: Mutex<Weak<Node>>,
    kids: Mutex<Vec<Arc<Node>>>,
}

impl Drop for Node {
    fn drop(&mut self) {
        println!("drop {}", self.v);
    }
}

fn main() {
    let a = Arc::new(vec![1, 2, 3]);
    let hs: Vec<_> = (0..6)
        .map(|_| {
            let a = Arc::clone(&a);
            thread::spawn(move || {
                let b = a.clone();
                let w = Arc::downgrade(&b);
                drop(b);
                w.upgrade().map(|x| x.len())
            })
        })
        .collect();
    for h in hs {
        assert_eq!(h.join().unwrap(), Some(3));
    }
    println!("{} {}", Arc::strong_count(&a), Arc::weak_count(&a));
    let mut m = a;
    Arc::make_mut(&mut m).push(4);
    println!("{:?}", m);
    println!("{:?}", Arc::get_mut(&mut m).is_some());
    let root = Arc::new(Node { v: 0, parent: Mutex::new(Weak::new()), kids: Mutex::new(vec![]) });
    for v in 1..4 {
        let k = Arc::new(Node { v, parent: Mutex::new(Arc::downgrade(&root)), kids: Mutex::new(vec![]) });
        root.kids.lock().unwrap().push(k);
    }
    println!("{}", root.kids.lock().unwrap()[1].parent.lock().unwrap().upgrade().unwrap().v);
    let w = Arc::downgrade(&root);
    drop(root);
    println!("{}", w.upgrade().is_none());
    let s: Arc<str> = "text".into();
    let t: Arc<[u64]> = (0..5).collect();
    println!("{s} {t:?}");
    let c = Arc::new_cyclic(|me: &Weak<(u32, Weak<()>)>| {
        assert!(me.upgrade().is_none());
        (7, Weak::new())
    });
    println!("{}", c.0);
}
