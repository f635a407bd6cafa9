//! `oracle sums`: this toolchain's float sums start at -0.0.

use crate::arguments::Arguments;
use std::hint::black_box;

pub fn sums(arguments: &Arguments) -> Result<(), String> {
    arguments.expect(0, &[])?;
    let cases: [(&str, &[f32], u32); 4] = [
        ("no terms", &[], 0x8000_0000),
        ("-0.0", &[-0.0], 0x8000_0000),
        ("-0.0, -0.0", &[-0.0, -0.0], 0x8000_0000),
        ("-0.0, +0.0", &[-0.0, 0.0], 0x0000_0000),
    ];
    let mut wrong = 0;
    for (terms, values, expected) in cases {
        let sum = black_box(values).iter().sum::<f32>().to_bits();
        println!("sum of {terms}: {sum:08x}");
        wrong += (sum != expected) as u32;
    }
    if wrong > 0 {
        return Err("the float sums of this toolchain do not start at -0.0".to_string());
    }
    println!("float sums start at -0.0");
    Ok(())
}
