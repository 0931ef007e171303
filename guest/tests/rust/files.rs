//! Files and directories.

use std::fs::*;
use std::io::{BufRead, BufReader, BufWriter, Read, Result, Seek, SeekFrom, Write};
use std::os::unix::fs::symlink;

fn main() -> Result<()> {
    let d = std::env::temp_dir().join("dthreads-rust-test");
    let _ = remove_dir_all(&d);
    create_dir_all(d.join("a/b"))?;
    let p = d.join("a/one.txt");
    write(&p, "first\nsecond\n")?;
    println!("{:?}", read_to_string(&p)?);
    OpenOptions::new().append(true).open(&p)?.write_all(b"third\n")?;
    for l in BufReader::new(File::open(&p)?).lines() {
        println!("{}", l?);
    }
    let m = metadata(&p)?;
    println!("{} {} {} {}", m.len(), m.is_file(), m.is_dir(), m.modified().is_ok());
    let mut f = OpenOptions::new().read(true).write(true).open(&p)?;
    f.seek(SeekFrom::Start(6))?;
    f.write_all(b"SECOND")?;
    f.rewind()?;
    let mut s = String::new();
    f.read_to_string(&mut s)?;
    println!("{s:?} {}", f.stream_position()?);
    f.set_len(5)?;
    println!("{}", f.metadata()?.len());
    f.sync_all()?;
    drop(f);
    rename(&p, d.join("a/two.txt"))?;
    println!("{:?} {:?}", File::open(&p).map(|_| ()).unwrap_err().kind(), d.join("a/two.txt").exists());
    println!("{} ", copy(d.join("a/two.txt"), d.join("a/three.txt"))?);
    let mut n: Vec<_> = read_dir(d.join("a"))?
        .map(|e| {
            let e = e.unwrap();
            (e.file_name().into_string().unwrap(), e.file_type().unwrap().is_dir())
        })
        .collect();
    n.sort();
    println!("{n:?}");
    println!("{:?} {:?}", remove_dir(d.join("a")).unwrap_err().kind(), create_dir(d.join("a")).unwrap_err().kind());
    println!("{:?}", OpenOptions::new().write(true).create_new(true).open(d.join("a/two.txt")).unwrap_err().kind());
    let h = std::thread::spawn({
        let d = d.clone();
        move || write(d.join("by-thread"), vec![9u8; 100_000])
    });
    h.join().unwrap()?;
    println!("{}", read(d.join("by-thread"))?.len());
    let mut w = BufWriter::new(File::create(d.join("buffered"))?);
    for i in 0..1000 {
        writeln!(w, "{i}")?;
    }
    w.flush()?;
    println!("{}", metadata(d.join("buffered"))?.len());
    println!("{:?}", read_to_string("/nowhere/file").unwrap_err().kind());
    println!("{}", read_to_string("/nowhere/file").unwrap_err());
    println!("{}", std::env::current_dir().is_ok());
    std::env::set_current_dir(&d)?;
    println!("{}", metadata("buffered").is_ok());
    println!("{}", canonicalize("a/../buffered")?.ends_with("buffered"));
    let mut pm = metadata("buffered")?.permissions();
    pm.set_readonly(true);
    set_permissions("buffered", pm)?;
    println!("{}", metadata("buffered")?.permissions().readonly());
    println!("{:?}", hard_link("buffered", "hard").is_ok());
    symlink("a", "link")?;
    println!("{:?} {}", read_link("link")?, symlink_metadata("link")?.file_type().is_symlink());
    println!("{} {}", metadata("link")?.is_dir(), canonicalize("link/../hard")?.ends_with("hard"));
    symlink("nowhere", "link/lost")?;
    println!("{:?}", read("a/lost").unwrap_err().kind());
    std::env::set_current_dir("/")?;
    remove_file(d.join("by-thread"))?;
    remove_dir_all(&d)?;
    println!("{}", d.exists());
    Ok(())
}
