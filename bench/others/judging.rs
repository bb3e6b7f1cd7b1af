//! The fifteen rules of bench/judging.rules in plain Rust, as one would write it without proofs: judging DELIVERY prints the
//! report, and on standard error the seconds of loading and of judging.
//!
//! A rule is a tree that is walked for each object, with OCL's null and invalid. The classes and features of
//! examples/catalogue.json are built in, and what the rules take for granted of a delivery is taken for granted here, too.

use std::collections::HashMap;
use std::io::Write;
use std::time::Instant;

// ---- JSON, with borrowed texts

enum Json<'a> {
    Number(i64),
    Text(&'a str),
    List(Vec<Json<'a>>),
    Record(Vec<(&'a str, Json<'a>)>),
}

struct Reader<'a> {
    text: &'a str,
    at: usize,
}

impl<'a> Reader<'a> {
    fn peek(&mut self) -> u8 {
        while self.text.as_bytes()[self.at].is_ascii_whitespace() {
            self.at += 1;
        }
        self.text.as_bytes()[self.at]
    }

    fn take(&mut self, wanted: u8) -> bool {
        let is_there = self.peek() == wanted;
        self.at += is_there as usize;
        is_there
    }

    /// A text without escapes: bench/generate.py writes none.
    fn text(&mut self) -> &'a str {
        assert!(self.take(b'"'));
        let start = self.at;
        self.at += self.text[start..].find('"').expect("a closing quote");
        self.at += 1;
        &self.text[start..self.at - 1]
    }

    fn number(&mut self) -> i64 {
        let start = self.at;
        while matches!(self.text.as_bytes()[self.at], b'-' | b'0'..=b'9') {
            self.at += 1;
        }
        self.text[start..self.at].parse().expect("a whole number")
    }

    fn value(&mut self) -> Json<'a> {
        match self.peek() {
            b'"' => Json::Text(self.text()),
            b'[' => {
                let mut items = Vec::new();
                self.at += 1;
                while !self.take(b']') {
                    items.push(self.value());
                    self.take(b',');
                }
                Json::List(items)
            }
            b'{' => {
                let mut members = Vec::new();
                self.at += 1;
                while !self.take(b'}') {
                    let name = self.text();
                    assert!(self.take(b':'));
                    members.push((name, self.value()));
                    self.take(b',');
                }
                Json::Record(members)
            }
            _ => Json::Number(self.number()),
        }
    }
}

// ---- what is delivered

#[derive(Clone, Copy, PartialEq)]
enum Class {
    Cable,
    Pipe,
    Duct,
    Network,
}

#[derive(Clone, Copy)]
enum Feature {
    Identification,
    Depth,
    Voltage,
    Diameter,
    Theme,
    Holds,
    LiesIn,
    Pipes,
    Net,
}

#[derive(Clone, PartialEq)]
enum Value<'a> {
    Null,
    Invalid,
    Truth(bool),
    Number(i64),
    Text(&'a str),
    Object(usize),
    Many(Vec<Value<'a>>),
}

struct Object<'a> {
    id: &'a str,
    class: Class,
    identification: Option<&'a str>,
    depth: Option<i64>,
    voltage: Option<i64>,
    diameter: Option<i64>,
    theme: Option<&'a str>,
    holds: Vec<usize>,
    lies_in: Option<usize>,
    pipes: Vec<usize>,
    net: Option<usize>,
}

fn class_of(name: &str) -> Class {
    match name {
        "Elektriciteitskabel" => Class::Cable,
        "Waterleiding" => Class::Pipe,
        "Mantelbuis" => Class::Duct,
        _ => Class::Network,
    }
}

fn member<'j, 'a>(record: &'j Json<'a>, name: &str) -> Option<&'j Json<'a>> {
    match record {
        Json::Record(members) => members.iter().find(|it| it.0 == name).map(|it| &it.1),
        _ => None,
    }
}

fn text_in<'a>(record: &Json<'a>, name: &str) -> Option<&'a str> {
    match member(record, name) {
        Some(Json::Text(text)) => Some(text),
        _ => None,
    }
}

fn number_in(record: &Json, name: &str) -> Option<i64> {
    match member(record, name) {
        Some(Json::Number(number)) => Some(*number),
        _ => None,
    }
}

fn targets_in(record: &Json, name: &str, numbers: &HashMap<&str, usize>) -> Vec<usize> {
    match member(record, name) {
        Some(Json::List(ids)) => ids
            .iter()
            .map(|id| match id {
                Json::Text(id) => numbers[id],
                _ => panic!("an id is a text"),
            })
            .collect(),
        _ => Vec::new(),
    }
}

fn load<'a>(document: &Json<'a>) -> Vec<Object<'a>> {
    let Some(Json::List(entries)) = member(document, "objects") else { panic!("no objects") };
    let ids = entries.iter().map(|it| text_in(it, "id").expect("an id"));
    let numbers: HashMap<&str, usize> = ids.enumerate().map(|(number, id)| (id, number)).collect();
    let mut objects: Vec<Object> = entries
        .iter()
        .map(|entry| {
            let features = member(entry, "features").expect("features");
            Object {
                id: text_in(entry, "id").expect("an id"),
                class: class_of(text_in(entry, "class").expect("a class")),
                identification: text_in(features, "identificatie"),
                depth: number_in(features, "diepte"),
                voltage: number_in(features, "spanning"),
                diameter: number_in(features, "diameter"),
                theme: text_in(features, "thema"),
                holds: targets_in(features, "omvat", &numbers),
                lies_in: None,
                pipes: targets_in(features, "leidingen", &numbers),
                net: None,
            }
        })
        .collect();
    for number in 0..objects.len() {
        for held in objects[number].holds.clone() {
            objects[held].lies_in = Some(number);
        }
        for pipe in objects[number].pipes.clone() {
            objects[pipe].net = Some(number);
        }
    }
    objects
}

// ---- rules as trees

enum Expr {
    This,
    Variable(usize),
    Number(i64),
    Theme(&'static str),
    Read(Box<Expr>, Feature),
    Collect(Box<Expr>, Feature),
    AsCollection(Box<Expr>),
    Size(Box<Expr>),
    NotEmpty(Box<Expr>),
    Length(Box<Expr>),
    AsSet(Box<Expr>),
    Is(Box<Expr>, Class),
    Undefined(Box<Expr>),
    Minus(Box<Expr>, Box<Expr>),
    AtMost(Box<Expr>, Box<Expr>),
    Below(Box<Expr>, Box<Expr>),
    Equal(Box<Expr>, Box<Expr>),
    Not(Box<Expr>),
    And(Box<Expr>, Box<Expr>),
    Or(Box<Expr>, Box<Expr>),
    Implies(Box<Expr>, Box<Expr>),
    ForAll(Box<Expr>, Box<Expr>),
    Exists(Box<Expr>, Box<Expr>),
    Let(Box<Expr>, Box<Expr>),
}

struct Run<'o, 'a> {
    objects: &'o [Object<'a>],
    this: usize,
    variables: Vec<Value<'a>>,
}

impl<'a> Run<'_, 'a> {
    fn read(&self, object: usize, feature: Feature) -> Value<'a> {
        let it = &self.objects[object];
        let number = |it: Option<i64>| it.map_or(Value::Null, Value::Number);
        let one = |it: Option<usize>| it.map_or(Value::Null, Value::Object);
        let many = |them: &[usize]| Value::Many(them.iter().map(|it| Value::Object(*it)).collect());
        match feature {
            Feature::Identification => it.identification.map_or(Value::Null, Value::Text),
            Feature::Depth => number(it.depth),
            Feature::Voltage => number(it.voltage),
            Feature::Diameter => number(it.diameter),
            Feature::Theme => it.theme.map_or(Value::Null, Value::Text),
            Feature::Holds => many(&it.holds),
            Feature::LiesIn => one(it.lies_in),
            Feature::Pipes => many(&it.pipes),
            Feature::Net => one(it.net),
        }
    }

    fn numbers(&mut self, left: &Expr, right: &Expr, f: fn(i64, i64) -> Value<'static>) -> Value<'a> {
        match (self.value(left), self.value(right)) {
            (Value::Number(left), Value::Number(right)) => f(left, right),
            _ => Value::Invalid,
        }
    }

    fn many(&mut self, source: &Expr, f: impl FnOnce(Vec<Value<'a>>) -> Value<'a>) -> Value<'a> {
        match self.value(source) {
            Value::Many(items) => f(items),
            _ => Value::Invalid,
        }
    }

    /// The first body that is this; else undecided where a body is; else the other.
    fn iterate(&mut self, source: &Expr, body: &Expr, decides: bool) -> Value<'a> {
        let Value::Many(items) = self.value(source) else { return Value::Invalid };
        let mut undecided = None;
        for item in items {
            self.variables.push(item);
            let truth = self.value(body);
            self.variables.pop();
            match truth {
                Value::Truth(truth) if truth == decides => return Value::Truth(decides),
                Value::Truth(_) => {}
                other => undecided = Some(other),
            }
        }
        undecided.unwrap_or(Value::Truth(!decides))
    }

    fn either(&mut self, left: Value<'a>, right: &Expr) -> Value<'a> {
        match (left, self.value(right)) {
            (Value::Truth(true), _) | (_, Value::Truth(true)) => Value::Truth(true),
            (Value::Truth(false), other) | (other, Value::Truth(false)) => other,
            (Value::Null, Value::Null) => Value::Null,
            _ => Value::Invalid,
        }
    }

    fn negated(value: Value<'a>) -> Value<'a> {
        match value {
            Value::Truth(truth) => Value::Truth(!truth),
            other => other,
        }
    }

    fn value(&mut self, expr: &Expr) -> Value<'a> {
        match expr {
            Expr::This => Value::Object(self.this),
            Expr::Variable(number) => self.variables[*number].clone(),
            Expr::Number(number) => Value::Number(*number),
            Expr::Theme(theme) => Value::Text(theme),
            Expr::Read(source, feature) => match self.value(source) {
                Value::Object(object) => self.read(object, *feature),
                _ => Value::Invalid,
            },
            Expr::Collect(source, feature) => {
                let Value::Many(items) = self.value(source) else { return Value::Invalid };
                let read = |it| if let Value::Object(object) = it { self.read(object, *feature) } else { Value::Invalid };
                Value::Many(items.into_iter().map(read).collect())
            }
            Expr::AsCollection(source) => match self.value(source) {
                Value::Null => Value::Many(Vec::new()),
                Value::Invalid => Value::Invalid,
                value => Value::Many(vec![value]),
            },
            Expr::Size(source) => self.many(source, |items| Value::Number(items.len() as i64)),
            Expr::NotEmpty(source) => self.many(source, |items| Value::Truth(!items.is_empty())),
            Expr::Length(source) => match self.value(source) {
                Value::Text(text) => Value::Number(text.chars().count() as i64),
                _ => Value::Invalid,
            },
            Expr::AsSet(source) => self.many(source, |items| {
                let mut set: Vec<Value> = Vec::new();
                for item in items {
                    if !set.contains(&item) {
                        set.push(item);
                    }
                }
                Value::Many(set)
            }),
            Expr::Is(source, class) => match self.value(source) {
                Value::Object(object) => Value::Truth(self.objects[object].class == *class),
                _ => Value::Invalid,
            },
            Expr::Undefined(source) => Value::Truth(matches!(self.value(source), Value::Null | Value::Invalid)),
            Expr::Minus(left, right) => self.numbers(left, right, |left, right| left.checked_sub(right).map_or(Value::Invalid, Value::Number)),
            Expr::AtMost(left, right) => self.numbers(left, right, |left, right| Value::Truth(left <= right)),
            Expr::Below(left, right) => self.numbers(left, right, |left, right| Value::Truth(left < right)),
            Expr::Equal(left, right) => match (self.value(left), self.value(right)) {
                (Value::Invalid, _) | (_, Value::Invalid) => Value::Invalid,
                (left, right) => Value::Truth(left == right),
            },
            Expr::Not(source) => Self::negated(self.value(source)),
            Expr::And(left, right) => {
                let left = Self::negated(self.value(left));
                match (left, Self::negated(self.value(right))) {
                    (Value::Truth(true), _) | (_, Value::Truth(true)) => Value::Truth(false),
                    (Value::Truth(false), other) | (other, Value::Truth(false)) => Self::negated(other),
                    (Value::Null, Value::Null) => Value::Null,
                    _ => Value::Invalid,
                }
            }
            Expr::Or(left, right) => {
                let left = self.value(left);
                self.either(left, right)
            }
            Expr::Implies(left, right) => {
                let left = Self::negated(self.value(left));
                self.either(left, right)
            }
            Expr::ForAll(source, body) => self.iterate(source, body, false),
            Expr::Exists(source, body) => self.iterate(source, body, true),
            Expr::Let(value, body) => {
                let value = self.value(value);
                self.variables.push(value);
                let value = self.value(body);
                self.variables.pop();
                value
            }
        }
    }
}

struct Rule {
    name: &'static str,
    context: Option<Class>,
    body: Expr,
}

fn boxed(expr: Expr) -> Box<Expr> {
    Box::new(expr)
}

fn own(feature: Feature) -> Box<Expr> {
    boxed(Expr::Read(boxed(Expr::This), feature))
}

fn of(variable: usize, feature: Feature) -> Box<Expr> {
    boxed(Expr::Read(boxed(Expr::Variable(variable)), feature))
}

fn number(number: i64) -> Box<Expr> {
    boxed(Expr::Number(number))
}

fn some(feature: Feature) -> Box<Expr> {
    boxed(Expr::NotEmpty(boxed(Expr::AsCollection(own(feature)))))
}

/// The rules, in the file's order; one without a class is for cables, pipes and ducts.
fn rules() -> Vec<Rule> {
    use Feature::*;
    let duct_depth = || boxed(Expr::Read(own(LiesIn), Depth));
    let rule = |name, context, body| Rule { name, context, body };
    let lines = |name, body| rule(name, None, body);
    let is = |class| boxed(Expr::Is(boxed(Expr::Variable(0)), class));
    vec![
        lines("deepEnough", Expr::AtMost(number(600), own(Depth))),
        lines("notTooDeep", Expr::AtMost(own(Depth), number(5000))),
        lines("identified", Expr::Below(number(0), boxed(Expr::Length(own(Identification))))),
        lines("inNetworkOrDuct", Expr::Or(boxed(Expr::Or(some(Net), some(LiesIn))), boxed(Expr::Is(boxed(Expr::This), Class::Duct)))),
        lines("shallowInDuct", Expr::Implies(boxed(Expr::Below(own(Depth), number(800))), some(LiesIn))),
        lines(
            "withinDuct",
            Expr::Or(
                boxed(Expr::Undefined(duct_depth())),
                boxed(Expr::AtMost(boxed(Expr::Minus(duct_depth(), number(100))), own(Depth))),
            ),
        ),
        rule(
            "knownVoltage",
            Some(Class::Cable),
            Expr::And(boxed(Expr::Below(number(0), own(Voltage))), boxed(Expr::AtMost(own(Voltage), number(380_000)))),
        ),
        rule(
            "highVoltageDeep",
            Some(Class::Cable),
            Expr::Implies(boxed(Expr::Below(number(1000), own(Voltage))), boxed(Expr::AtMost(number(1000), own(Depth)))),
        ),
        rule(
            "width",
            Some(Class::Pipe),
            Expr::And(boxed(Expr::AtMost(number(20), own(Diameter))), boxed(Expr::AtMost(own(Diameter), number(2000)))),
        ),
        rule("holdsSomething", Some(Class::Duct), Expr::NotEmpty(own(Holds))),
        rule("allDeep", Some(Class::Duct), Expr::ForAll(own(Holds), boxed(Expr::AtMost(number(600), of(0, Depth))))),
        rule("noDuctInside", Some(Class::Duct), Expr::Not(boxed(Expr::Exists(own(Holds), is(Class::Duct))))),
        rule(
            "oneDepth",
            Some(Class::Duct),
            Expr::AtMost(boxed(Expr::Size(boxed(Expr::AsSet(boxed(Expr::Collect(own(Holds), Depth)))))), number(1)),
        ),
        rule(
            "themeOfPipes",
            Some(Class::Network),
            Expr::Implies(
                boxed(Expr::Equal(own(Theme), boxed(Expr::Theme("water")))),
                boxed(Expr::ForAll(own(Pipes), is(Class::Pipe))),
            ),
        ),
        rule(
            "someDeep",
            Some(Class::Network),
            Expr::Let(
                boxed(Expr::Collect(own(Pipes), Depth)),
                boxed(Expr::Exists(boxed(Expr::Variable(0)), boxed(Expr::Below(number(700), boxed(Expr::Variable(1)))))),
            ),
        ),
    ]
}

fn judge(objects: &[Object], out: &mut impl Write) -> std::io::Result<()> {
    let (mut all_fails, mut all_undecided) = (0, 0);
    for rule in rules() {
        let (mut holds, mut fails, mut undecided) = (0, 0, 0);
        for (this, object) in objects.iter().enumerate() {
            if rule.context.map_or(object.class == Class::Network, |class| object.class != class) {
                continue;
            }
            match (Run { objects, this, variables: Vec::new() }).value(&rule.body) {
                Value::Truth(true) => holds += 1,
                Value::Truth(false) => {
                    fails += 1;
                    writeln!(out, "fail {} {}", rule.name, object.id)?;
                }
                _ => {
                    undecided += 1;
                    writeln!(out, "undecided {} {}", rule.name, object.id)?;
                }
            }
        }
        let checked = holds + fails + undecided;
        writeln!(out, "rule {} checked {checked} holds {holds} fails {fails} undecided {undecided}", rule.name)?;
        (all_fails, all_undecided) = (all_fails + fails, all_undecided + undecided);
    }
    writeln!(out, "total fails {all_fails} undecided {all_undecided}")?;
    out.flush()
}

fn main() -> std::io::Result<()> {
    let begun = Instant::now();
    let text = std::fs::read_to_string(std::env::args().nth(1).expect("a delivery"))?;
    let document = Reader { text: &text, at: 0 }.value();
    let objects = load(&document);
    let loaded = Instant::now();
    judge(&objects, &mut std::io::BufWriter::new(std::io::stdout().lock()))?;
    eprintln!("loading {:.3} s, judging {:.3} s", (loaded - begun).as_secs_f64(), loaded.elapsed().as_secs_f64());
    Ok(())
}
