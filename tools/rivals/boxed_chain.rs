//! The additions of a chain over boxed values: each value is the one before and the row's own
//! number, checked. Prints the least nanoseconds for a value of fifty passes.
//!
//!     boxed_chain ROWS
use std::time::Instant;

#[derive(Clone)]
enum Value {
    Int(i64),
    Text(String),
}

fn sum(left: &Value, right: &Value) -> Option<Box<Value>> {
    match (left, right) {
        (Value::Int(left), Value::Int(right)) => {
            Some(Box::new(Value::Int(left.checked_add(*right)?)))
        }
        (Value::Text(left), Value::Text(right)) => {
            Some(Box::new(Value::Text(format!("{left}{right}"))))
        }
        _ => None,
    }
}

fn chain(own: &[Box<Value>]) -> Option<Vec<Box<Value>>> {
    let mut values: Vec<Box<Value>> = Vec::new();
    for number in own {
        let before = match values.last() {
            Some(value) => value.clone(),
            None => Box::new(Value::Int(0)),
        };
        values.push(sum(&before, number)?);
    }
    Some(values)
}

fn main() {
    let rows: usize = std::env::args().nth(1).unwrap().parse().unwrap();
    // A text for a row that is not there, so that the kinds are looked at.
    let own: Vec<Box<Value>> = (0..=rows)
        .map(|row| Box::new(if row < rows { Value::Int(1) } else { Value::Text("1".into()) }))
        .collect();
    assert!(chain(&own).is_none());
    let mut least = f64::MAX;
    for _ in 0..50 {
        let start = Instant::now();
        let values = chain(&own[..rows]).unwrap();
        least = least.min(start.elapsed().as_secs_f64());
        assert!(matches!(**values.last().unwrap(), Value::Int(last) if last == rows as i64));
    }
    println!("{}", 1e9 * least / rows as f64);
}
