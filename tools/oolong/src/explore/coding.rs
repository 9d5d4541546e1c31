//! Numbers and values as short byte strings.

use crate::state::Value;

/// Seven bits a byte, the low ones first; the last byte is below 128.
pub fn put_number(bytes: &mut Vec<u8>, mut number: u64) {
    while number >= 128 {
        bytes.push((number % 128) as u8 | 128);
        number /= 128;
    }
    bytes.push(number as u8);
}

/// Null is 0; an object's number and an Int follow each other, odd and even.
pub fn put_value(bytes: &mut Vec<u8>, value: Value) {
    put_number(
        bytes,
        match value {
            Value::Null => 0,
            Value::Object(object) => 2 * object as u64 + 1,
            Value::Number(number) => 2 * u64::from((number << 1 ^ number >> 31) as u32) + 2,
        },
    );
}

/// Reads what was put, in the same order.
pub struct Coded<'a>(pub &'a [u8]);

impl Coded<'_> {
    pub fn is_empty(&self) -> bool {
        self.0.is_empty()
    }

    pub fn number(&mut self) -> usize {
        let mut number = 0;
        let mut shift = 0;
        while let Some((&byte, rest)) = self.0.split_first() {
            self.0 = rest;
            number |= usize::from(byte % 128) << shift;
            shift += 7;
            if byte < 128 {
                break;
            }
        }
        number
    }

    pub fn value(&mut self) -> Value {
        match self.number() {
            0 => Value::Null,
            odd if odd % 2 == 1 => Value::Object(odd / 2),
            even => {
                let zigzag = ((even - 2) / 2) as u32;
                Value::Number((zigzag >> 1) as i32 ^ -((zigzag & 1) as i32))
            }
        }
    }
}
