//! Numbers, as text and in arithmetic.

fn main() {
    println!("{} {} {:e} {:?} {}", 0.1 + 0.2, 1.0f32 / 3.0, 1.5e300, f64::MIN_POSITIVE, f64::NAN);
    println!("{} {} {}", "3.14159".parse::<f64>().unwrap(), 2f64.sqrt(), 2f64.powi(10));
    println!("{} {} {}", std::hint::black_box(1.0f64).sin(), std::hint::black_box(10.0f64).ln(), std::hint::black_box(2.5f64).powf(1.5));
    println!(
        "{} {} {}",
        u128::MAX / std::hint::black_box(12345678901234567890u128),
        u64::MAX % std::hint::black_box(1000003),
        i128::MIN / std::hint::black_box(7)
    );
    println!("{} {}", u64::MAX as f64, -1.5f64 as u32);
    println!("{:?}", (1u64 << 40).checked_mul(1 << 30));
    println!("{:?}", std::mem::size_of::<usize>() * 8 == usize::BITS as usize);
    println!("{} {}", i64::MIN.leading_zeros(), 0x8000_0001u32.rotate_left(3));
    println!("{:>8.3}|{:<6}|{:^7}|{:#010x}", 3.14159, "ab", "mid", 255);
}
