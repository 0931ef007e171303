//! serde_json: texts and numbers, there and back, in several threads.

use serde_json::{from_str, json, to_string_pretty, Value};
use std::thread;

fn main() {
    let value: Value = from_str(r#"{"a":[1,2.5,-3e10,true,null],"b":{"c":"text \u00e9"}}"#).unwrap();
    println!("{value} {}", value["a"][1].as_f64().unwrap() * 2.0);
    println!("{}", to_string_pretty(&value["b"]).unwrap());
    println!("{}", from_str::<Value>("{bad").unwrap_err());
    let threads: Vec<_> = (0..3).map(|i| thread::spawn(move || json!({ "thread": i, "half": f64::from(i) / 2.0 }).to_string())).collect();
    for thread in threads {
        println!("{}", thread.join().unwrap());
    }
}
