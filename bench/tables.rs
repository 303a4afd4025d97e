//! What `tables.rattle` does, in plain Rust over values of the same kinds: `tables FUNCTION ROWS`. It prints the microseconds that the
//! function takes, how many columns and rows it makes, and a sum over its values.

use std::collections::{HashMap, HashSet};
use std::time::Instant;

/// A value of a column.
#[derive(Clone)]
enum Value {
    Null,
    Boolean(bool),
    Int(i128),
    Text(String),
    List(Vec<Value>),
    Struct(Vec<Value>),
}

/// A type of a column.
#[derive(Clone)]
enum DataType {
    Boolean,
    Int8,
    Int64,
    UInt32,
    String,
    List(Box<DataType>),
    Struct(Vec<(String, DataType)>),
}

struct Column {
    name: String,
    dtype: DataType,
    values: Vec<Value>,
}

type Frame = Vec<Column>;

fn main() {
    let words: Vec<String> = std::env::args().collect();
    let [_, name, rows] = words.as_slice() else {
        println!("usage: tables FUNCTION ROWS");
        return;
    };
    let rows = rows.parse().expect("a number of rows");
    let (function, kinds): (fn(Frame) -> Frame, &[&str]) = match name.as_str() {
        "row_index" => (row_index, &["k", "a"]),
        "explode" => (explode, &["k", "l"]),
        "rename" => (rename, &["k", "a"]),
        "unpivot" => (unpivot, &["k", "a", "b"]),
        "unnest" => (unnest, &["k", "s"]),
        _ => (|frame| frame, &["k", "a"]),
    };
    let frame = kinds.iter().map(|kind| column(kind, rows)).collect();
    let start = Instant::now();
    let made = function(frame);
    let taken = start.elapsed();
    let rows = made.first().map_or(0, |it| it.values.len());
    let sum: i128 = made.iter().flat_map(|it| it.values.iter().map(number_of)).sum();
    println!("{} {} {rows} {sum}", taken.as_micros(), made.len());
}

/// A number for the value.
fn number_of(value: &Value) -> i128 {
    match value {
        Value::Null => 1,
        Value::Int(number) => *number,
        Value::Text(text) => text.len() as i128,
        _ => 2,
    }
}

/// A column of that name and of so many rows.
fn column(name: &str, rows: usize) -> Column {
    let dtype = match name {
        "k" => DataType::Int64,
        "a" => DataType::Int8,
        "b" => DataType::Boolean,
        "l" => DataType::List(Box::new(DataType::Int8)),
        _ => DataType::Struct(vec![("x".into(), DataType::Int8), ("y".into(), DataType::Int8)]),
    };
    Column { name: name.into(), dtype, values: (0..rows).map(|row| value(name, row)).collect() }
}

/// The value in a row of the column of that name.
fn value(name: &str, row: usize) -> Value {
    let small = Value::Int((row % 100) as i128);
    match name {
        "k" => Value::Int(row as i128),
        "a" | "s" if row % 10 == 0 => Value::Null,
        "a" => small,
        "b" => Value::Boolean(row % 2 == 0),
        "l" => Value::List(vec![small; row % 4]),
        _ => Value::Struct(vec![small; 2]),
    }
}

fn row_index(mut frame: Frame) -> Frame {
    let rows = frame.first().map_or(0, |it| it.values.len());
    let values = (0..rows).map(|row| Value::Int(i128::from(row as u32))).collect();
    frame.insert(0, Column { name: "row".into(), dtype: DataType::UInt32, values });
    frame
}

/// How many rows a value makes.
fn count(value: &Value) -> usize {
    match value {
        Value::List(items) => items.len().max(1),
        _ => 1,
    }
}

fn explode(frame: Frame) -> Frame {
    let names = HashSet::from(["l".to_string()]);
    let mut counts: Option<Vec<usize>> = None;
    for column in frame.iter().filter(|it| names.contains(&it.name)) {
        let own: Vec<usize> = column.values.iter().map(count).collect();
        assert!(counts.is_none_or(|others| others == own), "lists of one row differ in length");
        counts = Some(own);
    }
    let counts = counts.expect("a column is exploded");
    let room = counts.iter().sum();
    let explode_one = |column: Column| {
        let mut values = Vec::with_capacity(room);
        if !names.contains(&column.name) {
            for (value, count) in column.values.into_iter().zip(&counts) {
                values.extend(std::iter::repeat_n(value, *count));
            }
            return Column { values, ..column };
        }
        for value in column.values {
            match value {
                Value::List(items) if !items.is_empty() => values.extend(items),
                Value::List(_) => values.push(Value::Null),
                other => values.push(other),
            }
        }
        let dtype = match column.dtype {
            DataType::List(item) => *item,
            other => other,
        };
        Column { name: column.name, dtype, values }
    };
    frame.into_iter().map(explode_one).collect()
}

fn rename(mut frame: Frame) -> Frame {
    let names = HashMap::from([("k".to_string(), "a".to_string()), ("a".to_string(), "k".to_string())]);
    for column in &mut frame {
        if let Some(name) = names.get(&column.name) {
            column.name = name.clone();
        }
    }
    frame
}

/// The value as a small number, or null.
fn as_number(value: &Value) -> Value {
    match value {
        Value::Boolean(truth) => Value::Int(i128::from(*truth)),
        Value::Int(number) if i8::try_from(*number).is_ok() => Value::Int(*number),
        _ => Value::Null,
    }
}

fn unpivot(frame: Frame) -> Frame {
    let [index, on @ ..] = frame.as_slice() else {
        return frame;
    };
    let all = |values: &mut dyn Iterator<Item = Value>| values.collect::<Vec<Value>>();
    let repeated = all(&mut on.iter().flat_map(|_| index.values.iter().cloned()));
    let names = all(&mut on.iter().flat_map(|it| it.values.iter().map(|_| Value::Text(it.name.clone()))));
    let values = all(&mut on.iter().flat_map(|it| it.values.iter().map(as_number)));
    vec![
        Column { name: index.name.clone(), dtype: index.dtype.clone(), values: repeated },
        Column { name: "variable".into(), dtype: DataType::String, values: names },
        Column { name: "value".into(), dtype: DataType::Int8, values },
    ]
}

fn unnest(frame: Frame) -> Frame {
    let mut made = Vec::new();
    for column in frame {
        let Column { name, dtype, values } = column;
        match dtype {
            DataType::Struct(fields) if name == "s" => made.extend(fields_of(fields, values)),
            dtype => made.push(Column { name, dtype, values }),
        }
    }
    made
}

/// A column for each field of structs. A null has a null for each.
fn fields_of(fields: Vec<(String, DataType)>, values: Vec<Value>) -> Vec<Column> {
    let parts = |value| match value {
        Value::Struct(parts) => parts.into_iter(),
        _ => Vec::new().into_iter(),
    };
    let mut rows: Vec<_> = values.into_iter().map(parts).collect();
    let mut column = |(name, dtype)| {
        let values = rows.iter_mut().map(|row| row.next().unwrap_or(Value::Null)).collect();
        Column { name, dtype, values }
    };
    fields.into_iter().map(&mut column).collect()
}
