// The theorems that compute whole streams, with the Rust in the place of the definitions: both sides of each equation are to be equal.
use crate::buffer::Buffer;
use crate::terms::{File, Value};
use crate::video::{hand_outs, intra_quant_matrix, picture, Handed};
use std::path::Path;

const FILES: [&str; 5] = [
    "crates/clock/proofs/Example.antt",
    "crates/demands/proofs/Example.antt",
    "crates/demands/proofs/Listing.antt",
    "crates/picture/proofs/Example.antt",
    "crates/sequence/proofs/Example.antt",
];

fn made(name: &str, values: impl Into<Vec<Value>>) -> Value {
    Value::Made(name.to_string(), values.into())
}

fn number(n: impl TryInto<i64>) -> Value {
    Value::Number(n.try_into().ok().unwrap())
}

fn bytes(bytes: &[u8]) -> Value {
    Value::List(bytes.iter().map(|&byte| number(byte)).collect())
}

fn record<const N: usize>(fields: [(&str, Value); N]) -> Value {
    Value::Record(fields.into_iter().map(|(name, value)| (name.to_string(), value)).collect())
}

// A float is told by its bits.
fn float(x: f64) -> Value {
    made("float", [Value::Number(x.to_bits() as i64)])
}

fn float_of(value: &Value) -> f64 {
    let Value::Made(_, bits) = value else { panic!("{value:?} is a float") };
    f64::from_bits(bits[0].number() as u64)
}

// What opening and so many hand-outs leave. A decoder is the calls that led to it: the Rust makes them again.
fn left(stream: &Value, calls: usize, lent: &Value) -> Value {
    let run = hand_outs(&stream.bytes(), calls);
    let answer = match run.handed.last() {
        _ if run.number != 0 => made("number", [number(run.number)]),
        Some(last) => made("result", [record([("store", number(last.store)), ("time", float(last.time))])]),
        None => made("result", [made("tt", [])]),
    };
    let store = [bytes(&run.stores).list(), &lent.list()[run.stores.len()..]].concat();
    record([("answer", answer), ("decoder", made("calls", [number(calls)])), ("store", Value::List(store))])
}

// A hand-out goes on with the stream and the store of the call before.
fn hand_out(calls: &Value, stream: &Value, store: &Value) -> Value {
    let calls = calls.number() as usize;
    assert_eq!(left(stream, calls, store).field("store"), store, "the store is the one that the calls left");
    left(stream, calls + 1, store)
}

fn line(handed: usize, store: usize, picture_type: i32, answer: u32) -> Value {
    made("line", [number(handed), number(store), number(picture_type), number(answer)])
}

// RULES L.2, L.3
fn listing(stream: &Value) -> Value {
    let run = hand_outs(&stream.bytes(), usize::MAX);
    let mut lines: Vec<Value> = run.handed.iter().enumerate().map(|(n, picture)| line(n + 1, picture.store, picture.picture_type, 0)).collect();
    lines.push(line(run.handed.len(), 0, 0, run.number));
    Value::List(lines)
}

// The types in the headers of all pictures of a stream, the last one included, which no call decodes.
fn types(stream: &Value) -> Value {
    let mut buffer = Buffer::new(stream.bytes());
    let mut types = Vec::new();
    while buffer.find_start_code(0) != -1 {
        buffer.skip(10);
        types.push(number(buffer.read(3)));
    }
    Value::List(types)
}

// Of each picture that is handed out the store, and the samples 15 to 17 of the first row of its plane Y.
fn rows(stream: &Value) -> Value {
    let run = hand_outs(&stream.bytes(), usize::MAX);
    let row = |picture: &Handed| Value::List([&[number(picture.store)], bytes(&picture.planes[15..18]).list()].concat());
    Value::List(run.handed.iter().map(row).collect())
}

// The bits of the times of all pictures that are handed out.
fn time_bits(stream: &Value) -> Value {
    let run = hand_outs(&stream.bytes(), usize::MAX);
    Value::List(run.handed.iter().map(|picture| Value::Number(picture.time.to_bits() as i64)).collect())
}

// A run of a picture from the beginning of a stream.
fn run(given: &[Value], stream: &Value) -> Value {
    let [sizes, matrices, frame] = given else { panic!("a picture has sizes, matrices and a frame") };
    let (stores, left, at) = picture(sizes, matrices, frame, &stream.bytes());
    let stores = bytes(&stores);
    let value = if left == 0 { made("ok", [record([("store", stores)])]) } else { made("error", [made("stop", [number(left), stores])]) };
    record([("value", value), ("at", number(at))])
}

fn store_of(way: &Value) -> Value {
    match way {
        Value::Made(name, given) if name == "ok" => given[0].field("store").clone(),
        Value::Made(_, given) => match &given[0] {
            Value::Made(_, stop) => stop[1].clone(),
            _ => panic!("{way:?} has a store"),
        },
        _ => panic!("{way:?} is a result"),
    }
}

fn meaning(name: &str, given: Vec<Value>) -> Value {
    match (name, &given[..]) {
        ("replicate", [n, value]) => Value::List(vec![value.clone(); n.number() as usize]),
        ("take", [n, list]) => Value::List(list.list().iter().take(n.number() as usize).cloned().collect()),
        ("drop", [n, list]) => Value::List(list.list().iter().skip(n.number() as usize).cloned().collect()),
        ("pos", [n]) => n.clone(),
        // the Rust tells the number of a cause only
        ("dc_outside", [_, _, _, _]) => number(8),
        ("prediction_outside", [_, _, _, _]) => number(9),
        ("of_int", [_, n]) => float(n.number() as f64),
        ("div", [_, x, y]) => float(float_of(x) / float_of(y)),
        ("intra_quant_matrix", []) => bytes(&intra_quant_matrix()),
        ("opening", [stream, store]) => left(stream, 0, store),
        ("decode", [Value::Made(_, calls), stream, store]) => hand_out(&calls[0], stream, store),
        ("opening_answer" | "decode_answer", [answer]) => answer.clone(),
        ("listing", [stream]) => listing(stream),
        ("Ready", []) => made("result", [made("tt", [])]),
        ("types", [Value::Made(_, given)]) => types(&given[0]),
        ("rows", [Value::Made(_, given)]) => rows(&given[0]),
        ("time_bits", [stream]) => time_bits(stream),
        ("run", [Value::Made(_, given), stream, Value::Number(0)]) => run(given, stream),
        ("store_of", [way]) => store_of(way),
        ("is_ok", [Value::Made(way, _)]) => made(if way == "ok" { "true" } else { "false" }, []),
        ("P.picture_state", [picture, left, store]) => record([("picture", picture.clone()), ("block_data", left.clone()), ("store", store.clone())]),
        ("binary64" | "true" | "false" | "tt" | "result" | "number" | "line" | "error" | "stop" | "Y" | "P.picture" | "decoded", _) => made(name, given),
        _ => panic!("no meaning is known of {name}, applied to {} values", given.len()),
    }
}

// A line for each example, and whether all of them agree.
pub fn compare(root: &Path) -> bool {
    let (mut agree, mut all) = (0, 0);
    for name in FILES {
        let file = File::read(&std::fs::read_to_string(root.join(name)).expect(name));
        assert!(!file.equations.is_empty(), "{name} has examples");
        for equation in &file.equations {
            let (rust, stated) = file.sides(equation, meaning);
            let right = rust == stated;
            println!("{:6} {name} {}", if right { "ok" } else { "WRONG" }, equation.name);
            if !right {
                println!("       the Rust gives {rust:?}\n       stated is {stated:?}");
            }
            agree += right as usize;
            all += 1;
        }
    }
    println!("{agree} of {all} examples agree");
    agree == all
}
