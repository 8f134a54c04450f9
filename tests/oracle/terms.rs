// The terms of computed theorems as they stand in a file of proofs/: numbers, lists, records, and words applied to them.
use std::collections::BTreeMap;

#[derive(Clone, Debug, PartialEq)]
pub enum Value {
    Number(i64),
    List(Vec<Value>),
    Record(BTreeMap<String, Value>),
    // a word that stands for itself, and what it is applied to
    Made(String, Vec<Value>),
}

impl Value {
    pub fn number(&self) -> i64 {
        let Value::Number(n) = self else { panic!("{self:?} is a number") };
        *n
    }

    pub fn list(&self) -> &[Value] {
        let Value::List(values) = self else { panic!("{self:?} is a list") };
        values
    }

    pub fn bytes(&self) -> Vec<u8> {
        self.list().iter().map(|n| u8::try_from(n.number()).unwrap()).collect()
    }

    pub fn truth(&self) -> bool {
        *self == Value::Made("true".to_string(), Vec::new())
    }

    pub fn field(&self, name: &str) -> &Value {
        let Value::Record(fields) = self else { panic!("{self:?} is a record") };
        fields.get(name).unwrap_or_else(|| panic!("a record has {name}"))
    }
}

// What a word that the file does not define gives.
pub type Meaning = fn(&str, Vec<Value>) -> Value;

pub struct Equation {
    pub name: String,
    left: Vec<String>,
    right: Vec<String>,
}

#[derive(Default)]
pub struct File {
    definitions: BTreeMap<String, Vec<String>>,
    pub equations: Vec<Equation>,
}

fn words(text: &str) -> Vec<String> {
    let mut spaced = text.replace(['«', '»'], "");
    for mark in ["(", ")", "{", "}", ";"] {
        spaced = spaced.replace(mark, &format!(" {mark} "));
    }
    spaced.split_whitespace().map(String::from).collect()
}

// Does the item go on in the next line: with a bracket open, or behind a sign between two terms?
fn goes_on(item: &str) -> bool {
    let open = |from: char, to: char| item.matches(from).count() != item.matches(to).count();
    open('{', '}') || open('(', ')') || ["∷", "++"].iter().any(|sign| item.trim_end().ends_with(sign))
}

impl File {
    pub fn read(text: &str) -> File {
        let mut file = File::default();
        let mut item = String::new();
        for line in text.lines() {
            if ["--", "use ", "unfolding "].iter().any(|mark| line.trim_start().starts_with(mark)) {
                continue;
            }
            item.push_str(line);
            if !goes_on(&item) {
                file.add(&words(&std::mem::take(&mut item)));
            }
        }
        file
    }

    // `NAME = TERM`, or `pub NAME : TERM ≡ TERM`; all else is no matter of computation.
    fn add(&mut self, item: &[String]) {
        if let Some(sign) = item.iter().position(|word| word == "≡") {
            assert!(item[0] == "pub" && item[2] == ":", "an equation has a line of its own: {}", item.join(" "));
            self.equations.push(Equation { name: item[1].clone(), left: item[3..sign].to_vec(), right: item[sign + 1..].to_vec() });
        } else if item.len() > 2 && item[1] == "=" {
            self.definitions.insert(item[0].clone(), item[2..].to_vec());
        }
    }

    // Both sides of an equation.
    pub fn sides(&self, equation: &Equation, meaning: Meaning) -> (Value, Value) {
        (self.value(&equation.left, meaning), self.value(&equation.right, meaning))
    }

    fn value(&self, words: &[String], meaning: Meaning) -> Value {
        let mut term = Term { words, file: self, meaning, bound: Vec::new() };
        let value = term.whole();
        assert!(term.words.is_empty(), "a term ends before {}", term.words.join(" "));
        value
    }
}

struct Term<'a> {
    // those that are not read yet
    words: &'a [String],
    file: &'a File,
    meaning: Meaning,
    // by `let`
    bound: Vec<(String, Value)>,
}

impl<'a> Term<'a> {
    fn next(&self) -> &'a str {
        self.words.first().map_or(")", |word| word)
    }

    fn word(&mut self) -> &'a str {
        let (word, rest) = self.words.split_first().expect("a term goes on");
        self.words = rest;
        word
    }

    fn takes(&mut self, word: &str) -> bool {
        let found = self.next() == word && !self.words.is_empty();
        if found {
            self.word();
        }
        found
    }

    fn expect(&mut self, word: &str) {
        assert!(self.takes(word), "{word} stands before {}", self.next());
    }

    fn whole(&mut self) -> Value {
        if self.takes("let") {
            let name = self.word().to_string();
            self.expect("=");
            let value = self.whole();
            self.expect("in");
            self.bound.push((name, value));
            let body = self.whole();
            self.bound.pop();
            return body;
        }
        let first = self.applied();
        if self.takes("∷") {
            return Value::List([&[first], self.whole().list()].concat());
        }
        if self.takes("++") {
            return Value::List([first.list(), self.whole().list()].concat());
        }
        first
    }

    // A word with what it is applied to, or an atom.
    fn applied(&mut self) -> Value {
        if ["(", "record", "[]"].contains(&self.next()) || self.next().starts_with(|c: char| c.is_ascii_digit()) {
            return self.atom();
        }
        let name = self.word();
        let mut given = Vec::new();
        while ![")", "}", ";", "∷", "++", "in"].contains(&self.next()) {
            given.push(self.atom());
        }
        self.named(name, given)
    }

    // It has its fields behind it, as `(f x).field`.
    fn atom(&mut self) -> Value {
        let mut value = match self.word() {
            "(" => {
                let value = self.whole();
                self.expect(")");
                value
            }
            "record" => self.record(),
            "[]" => Value::List(Vec::new()),
            word if word.starts_with("0x") => Value::Number(i64::from_str_radix(&word[2..], 16).unwrap()),
            word => word.parse().map(Value::Number).unwrap_or_else(|_| self.named(word, Vec::new())),
        };
        while let Some(field) = self.next().strip_prefix('.') {
            self.word();
            value = value.field(field).clone();
        }
        value
    }

    fn record(&mut self) -> Value {
        let mut fields = BTreeMap::new();
        self.expect("{");
        while !self.takes("}") {
            let name = self.word().to_string();
            self.expect("=");
            fields.insert(name, self.whole());
            self.takes(";");
        }
        Value::Record(fields)
    }

    // A word, or a word of the file with fields, as `x.field`.
    fn named(&self, name: &str, given: Vec<Value>) -> Value {
        if let Some((_, value)) = self.bound.iter().rev().find(|(bound, _)| bound == name) {
            return value.clone();
        }
        if let Some((whole, field)) = name.rsplit_once('.') {
            let word = name.split('.').next().unwrap_or(name);
            if given.is_empty() && (self.bound.iter().any(|(bound, _)| bound == word) || self.file.definitions.contains_key(word)) {
                return self.named(whole, given).field(field).clone();
            }
        }
        match self.file.definitions.get(name) {
            Some(words) if given.is_empty() => self.file.value(words, self.meaning),
            _ => (self.meaning)(name, given),
        }
    }
}
