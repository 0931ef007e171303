//! Arguments, variables, input and status.

fn main() {
    println!("{:?}", std::env::args().skip(1).collect::<Vec<_>>());
    println!("{:?} {:?}", std::env::var("LEVEL"), std::env::var("NOTHERE"));
    std::env::set_var("MADE", "here");
    println!("{:?}", std::env::var("MADE"));
    std::env::remove_var("MADE");
    println!("{:?}", std::env::var_os("MADE"));
    let mut lines = 0;
    let mut words = 0;
    for l in std::io::stdin().lines() {
        let l = l.unwrap();
        lines += 1;
        words += l.split_whitespace().count();
    }
    println!("{lines} {words}");
    eprintln!("to standard error");
    std::process::exit(7);
}
