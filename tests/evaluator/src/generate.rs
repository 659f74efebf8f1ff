//! Texts for comparisons: facts and queries that are mostly accepted, the same with damage, texts with several faults, and texts at each
//! limit of document 01; some of them saved with CR LF, as Paper 1 of document 02 allows for facts, or with bytes 13 elsewhere, some with
//! patterns, as Paper 2 adds them, some that print what left-hand sides enter, as Paper 3 wants it, some whose relations grow and shrink,
//! for the counts of Paper 4, some with the sums and ratios of Paper 5, some with many chains, for Paper 6, and some with the manual's
//! programs for the closure, for Paper 8.
use crate::{accept, closed, entered, picked, resized, saved, shapes, shares, ties};

/// A small generator of pseudo-random numbers: the same seed gives the same texts on every machine.
pub struct Random(u64);

impl Random {
    pub fn new(seed: u64) -> Random {
        Random(seed.wrapping_mul(0x9E3779B97F4A7C15) ^ 0xD1B54A32D192ED03)
    }
    pub fn next(&mut self) -> u64 {
        self.0 ^= self.0 << 13;
        self.0 ^= self.0 >> 7;
        self.0 ^= self.0 << 17;
        self.0.wrapping_mul(0x2545F4914F6CDD1D) >> 11
    }
    pub fn below(&mut self, n: usize) -> usize {
        (self.next() % n.max(1) as u64) as usize
    }
    pub fn one_in(&mut self, n: usize) -> bool {
        self.below(n) == 0
    }
    pub fn pick<'a, T>(&mut self, all: &'a [T]) -> &'a T {
        &all[self.below(all.len())]
    }
}

/// One comparison: two texts and what the run is lent.
pub struct Texts {
    pub facts: Vec<u8>,
    pub query: Vec<u8>,
    pub budget: u32,
    /// words of store beyond those needed, or missing from them
    pub spare: i64,
    pub room: usize,
    /// whether each element is asked for
    pub elements: bool,
    pub chains: Vec<Chain>,
    /// an expression over x and y that is closed node by node over the facts
    pub closing: Option<&'static str>,
}

/// A call of the chain over the facts.
pub struct Chain {
    pub name: Vec<u8>,
    pub first: Vec<u8>,
    pub second: Vec<u8>,
    pub room: usize,
}

const NAMES: [(&str, usize); 8] = [("On", 2), ("Held", 1), ("P", 0), ("T", 3), ("Dep", 2), ("q_1", 1), ("Long_relation_name_of_32_bytes__", 2), ("IFF", 1)];
const ATTRIBUTES: [&str; 5] = ["x", "y", "z", "a1", "Name"];
const VARIABLES: [&str; 3] = ["c", "v", "loop"];
const ELEMENTS: [&str; 12] = ["B7", "C10", "C2", "C5", "B", "", "5Y off the run", "~", "Z", "0123456789abcdef0123456789abcdef", "[^c-5]", "\\\tC"];

pub struct Writer<'a> {
    r: &'a mut Random,
    out: Vec<u8>,
    /// attributes of the statement that is written, and open loop variables
    attributes: Vec<&'static str>,
    open: Vec<&'static str>,
    closures: usize,
}

impl Writer<'_> {
    fn put(&mut self, s: &str) {
        self.out.extend_from_slice(s.as_bytes());
    }
    fn blank(&mut self) {
        let s = *self.r.pick(&["", "", "", " ", "\n", "\t", " /* c */ ", "// c\n"]);
        self.put(s);
    }
    fn string(&mut self) {
        let s = *self.r.pick(&ELEMENTS);
        self.put("\"");
        self.put(s);
        self.put("\"");
    }
    fn sign(&mut self) -> &'static str {
        *self.r.pick(&["=", "!=", "<", "<=", ">", ">="])
    }
    /// a pattern of an element, or of any form, or malformed
    fn pick(&mut self) {
        let p = match self.r.below(40) {
            0 => picked::malformed(self.r),
            1..=10 => picked::pattern(self.r),
            _ => picked::pattern_of(self.r, &ELEMENTS),
        };
        self.put(&format!("@\"{p}\""));
        self.terms(1);
    }
    fn term(&mut self) {
        if self.r.one_in(400) {
            // a name that its place does not take, most times
            let x = *self.r.pick(&["c", "v", "loop", "On", "Held"]);
            return self.put(x);
        }
        match self.r.below(8) {
            0 => self.string(),
            1 => self.put("_"),
            2 if !self.open.is_empty() => {
                let v = *self.r.pick(&self.open.clone());
                self.put(v);
            }
            _ => {
                let x = *self.r.pick(&self.attributes.clone());
                self.put(x);
            }
        }
    }
    fn terms(&mut self, n: usize) {
        self.put("(");
        for i in 0..n {
            if i > 0 {
                self.put(",");
            }
            self.term();
        }
        self.put(")");
    }
    fn atom(&mut self) {
        let (name, arity) = *self.r.pick(&NAMES);
        self.put(name);
        self.terms(arity);
    }
    /// an expression, of at most d levels; `free` attributes are what its atoms mostly take
    fn expression(&mut self, d: usize) {
        self.blank();
        match if d == 0 { self.r.below(4) } else { self.r.below(17) } {
            3 if self.r.one_in(4) => self.pick(),
            0..=3 => self.atom(),
            4 => {
                self.term();
                let s = self.sign();
                self.put(s);
                self.term();
            }
            5 => {
                let s = self.sign();
                self.put(s);
                self.put("(");
                self.term();
                self.put(",");
                self.term();
                self.put(")");
            }
            6 => {
                let t = *self.r.pick(&["TRUE", "FALSE"]);
                self.put(t);
                let n = self.r.below(3);
                self.terms(n);
            }
            7 => {
                self.put("!");
                self.expression(d - 1);
            }
            8 | 9 => {
                let q = *self.r.pick(&["EX(", "FA("]);
                self.put(q);
                for _ in 0..1 + self.r.below(2) {
                    let x = *self.r.pick(&self.attributes.clone());
                    self.put(x);
                    self.put(",");
                }
                self.expression(d - 1);
                self.put(")");
            }
            10 if self.attributes.len() > 1 && self.closures < 16 => self.closure(d),
            11 => {
                self.put("(");
                if self.r.one_in(3) { self.weighing(d - 1) } else { self.comparison(d - 1) }
                self.put(")");
            }
            _ => {
                self.put("(");
                self.expression(d - 1);
                let o = *self.r.pick(&[" & ", " | ", "&", "|", " -> ", "<->"]);
                self.put(o);
                self.expression(d - 1);
                self.put(")");
            }
        }
    }
    fn closure(&mut self, d: usize) {
        self.closures += 1;
        let c = *self.r.pick(&["TC(", "TCFAST("]);
        self.put(c);
        let (x, y) = (self.attributes[0], *self.attributes.last().unwrap());
        match self.r.below(3) {
            0 => self.put(&format!("On({x},{y})")),
            1 => self.put(&format!("Dep({y},{x}) | On({x},{y})")),
            _ => self.over(&[x, y], d - 1),
        }
        self.put(")");
    }
    fn comparison(&mut self, d: usize) {
        self.expression(d);
        let s = self.sign();
        self.put(s);
        self.expression(d);
    }
    /// a sum; a number too large now and then
    fn sum(&mut self, d: usize) {
        for i in 0..1 + self.r.below(2) * self.r.below(3) {
            if i > 0 {
                let plus = *self.r.pick(&["+", " + "]);
                self.put(plus);
            }
            if d > 0 && !self.r.one_in(3) {
                self.put("#(");
                self.expression(d - 1);
                self.put(")");
            } else {
                let n = if self.r.one_in(50) { "1000000" } else { *self.r.pick(&["0", "1", "1", "2", "3", "4", "10", "007", "999999"]) };
                self.put(n);
            }
        }
    }
    fn quantity(&mut self, d: usize) {
        self.sum(d);
        if self.r.one_in(2) {
            let slash = *self.r.pick(&["/", " / "]);
            self.put(slash);
            self.sum(d);
        }
    }
    fn weighing(&mut self, d: usize) {
        self.quantity(d);
        let s = self.sign();
        self.put(s);
        self.quantity(d);
    }
    /// closes an expression over all attributes but those kept
    fn closed(&mut self, keep: &[&str], d: usize) {
        let bound: Vec<&str> = self.attributes.iter().copied().filter(|x| !keep.contains(x)).collect();
        if bound.is_empty() {
            return self.expression(d);
        }
        self.put("EX(");
        for x in bound {
            self.put(x);
            self.put(",");
        }
        self.expression(d);
        self.put(")");
    }
    /// an expression whose free attributes are exactly those given, most times
    fn over(&mut self, keep: &[&str], d: usize) {
        for x in keep {
            self.put(&format!("{x}={x} & "));
        }
        self.closed(keep, d);
    }
    fn fresh(&mut self) {
        let n = 1 + self.r.below(3);
        let from = self.r.below(ATTRIBUTES.len() - n + 1);
        self.attributes = ATTRIBUTES[from..from + n].to_vec();
        self.closures = 0;
    }
    fn assignment(&mut self) {
        let (name, arity) = *self.r.pick(&NAMES);
        self.put(name);
        self.put("(");
        let mut left = Vec::new();
        for i in 0..arity {
            if i > 0 {
                self.put(",");
            }
            if self.r.one_in(4) {
                self.string();
            } else {
                let x = *self.r.pick(&self.attributes.clone());
                self.put(x);
                if !left.contains(&x) {
                    left.push(x);
                }
            }
        }
        self.put(")");
        if self.r.one_in(5) {
            return self.put(";");
        }
        self.put(" := ");
        let d = 1 + self.r.below(4);
        self.over(&left, d);
        self.put(";");
    }
    fn item(&mut self) {
        match self.r.below(8) {
            0 => self.put("ENDL"),
            1 => self.string(),
            2 if !self.open.is_empty() => {
                let v = *self.r.pick(&self.open.clone());
                self.put(v);
            }
            3 if self.r.one_in(2) => self.quantity(2),
            k => {
                if k < 5 {
                    self.put("[");
                    self.string();
                    self.put("] ");
                }
                let n = self.r.below(self.attributes.len() + 1);
                let keep: Vec<&str> = self.attributes[..n].to_vec();
                let d = 1 + self.r.below(3);
                self.over(&keep, d);
            }
        }
    }
    fn block(&mut self, d: usize) {
        self.put(" {\n");
        for _ in 0..1 + self.r.below(3) {
            self.statement(d);
        }
        self.put("}\n");
    }
    fn statement(&mut self, d: usize) {
        self.fresh();
        self.blank();
        match if d == 0 { self.r.below(6) } else { self.r.below(11) } {
            0..=3 => self.assignment(),
            4 | 5 => {
                self.put("PRINT ");
                for i in 0..1 + self.r.below(3) {
                    if i > 0 {
                        self.put(", ");
                    }
                    self.item();
                }
                self.put(";");
            }
            6 => {
                self.put("IF ");
                self.closed(&[], 2);
                self.block(d - 1);
                if self.r.one_in(2) {
                    self.put("ELSE");
                    self.block(d - 1);
                }
            }
            7 => {
                self.put("WHILE ");
                self.closed(&[], 2);
                self.block(d - 1);
            }
            8 | 9 => self.for_loop(d),
            _ => self.block(d - 1),
        }
        self.put("\n");
    }
    fn for_loop(&mut self, d: usize) {
        // bound again, now and then
        let again = self.r.one_in(40);
        let Some(v) = VARIABLES.iter().find(|v| again || !self.open.contains(v)) else {
            return self.assignment();
        };
        let x = self.attributes[0];
        self.put(&format!("FOR {v} IN "));
        self.over(&[x], 2);
        self.open.push(v);
        self.block(d - 1);
        self.open.pop();
    }
}

pub fn facts(r: &mut Random) -> Vec<u8> {
    let mut out = Vec::new();
    for _ in 0..r.below(14) {
        if r.one_in(12) {
            out.extend(r.pick(&["# a comment\n", " \t \n", "\n"]).bytes());
            continue;
        }
        let (name, arity) = *r.pick(&NAMES[..6]);
        out.extend_from_slice(name.as_bytes());
        for _ in 0..arity {
            out.extend(r.pick(&[" ", "\t", "  "]).bytes());
            let e = *r.pick(&ELEMENTS);
            out.extend(picked::in_facts(r, e).bytes());
        }
        out.extend(r.pick(&["\n", "\n", "\n", " \n"]).bytes());
    }
    if r.one_in(10) {
        out.extend_from_slice(b". not read \x01");
    } else if r.one_in(6) {
        out.pop();
    }
    out
}

pub fn query(r: &mut Random) -> Vec<u8> {
    let n = 1 + r.below(5);
    let mut w = Writer { r, out: Vec::new(), attributes: Vec::new(), open: Vec::new(), closures: 0 };
    for _ in 0..n {
        w.statement(3);
    }
    w.out
}

/// Some bytes changed, left out, doubled or moved.
pub fn damage(r: &mut Random, text: &mut Vec<u8>) {
    const BYTES: &[u8] = b"()[]{},;:=&|!-<>\"_#. \n\tAx019+/*\x00\x7f\xff\r";
    for _ in 0..1 + r.below(3) {
        let at = r.below(text.len() + 1);
        match r.below(5) {
            0 if at < text.len() => {
                text.remove(at);
            }
            1 => text.insert(at, *r.pick(BYTES)),
            2 if at < text.len() => text[at] = *r.pick(BYTES),
            3 => text.truncate(at),
            _ => {
                let to = (at + 1 + r.below(12)).min(text.len());
                let part = text[at..to].to_vec();
                let there = r.below(text.len() + 1);
                text.splice(there..there, part);
            }
        }
    }
}

fn repeated(n: usize, f: impl Fn(usize) -> String) -> String {
    (0..n).map(f).collect()
}

/// The limits of documents 01 and 02 that texts can meet.
pub const LIMITS: usize = 71;

/// Texts one below a limit (past 0), at it (1) or one past it (2). Where a document asks for an exact number, that is the middle one.
pub fn limit(kind: usize, past: usize) -> (Vec<u8>, Vec<u8>) {
    let n = |limit: usize| limit - 1 + past;
    let names = |first: usize, count: usize| (first..first + count).map(|i| format!("a{i}")).collect::<Vec<_>>().join(",");
    let nested = |open: &str, inside: &str, close: &str| format!("{}{inside}{}", open.repeat(n(32)), close.repeat(n(32)));
    let plain = "On(x,y) := On(y,x); PRINT On(x,y);".to_string();
    let few = "On C10 C5\nOn C5 C2\nOn B7 C10\nHeld B7\n".to_string();
    let single = "Held B7\n".to_string();
    let two_bytes = |count: usize| repeated(count, |i| format!("A {i:02}\n"));
    let one_byte = |i: usize| (b'0' + i as u8) as char;
    let ones = |count: usize| vec!["1"; count].join("+");
    let counts = |count: usize| vec!["#(Held(x))"; count].join("+");
    let (facts, query) = match kind {
        0 => (format!("{:#<width$}", "On a b\n#", width = n(32768)), plain),
        1 => (format!("Held {}\n", "e".repeat(n(32))), plain),
        2 => (format!("Held \"{}\"\n", " ".repeat(n(32))), "PRINT Held(x);".into()),
        3 => (format!("{} a\n", "N".repeat(n(32))), plain),
        4 => (format!("T {}\n", "a ".repeat(n(3))), plain),
        5 => (format!("On a b\nOn {}\n", "a ".repeat(n(2))), plain),
        6 => (repeated(n(16), |i| format!("R{i} a\n")), "PRINT R1(x);".into()),
        7 => (repeated(n(64), |i| format!("Held e{i}\n")), "FOR c IN Held(x) { PRINT c, ENDL; } PRINT !Held(x);".into()),
        8 => (repeated(n(64), |i| format!("On e{i} e{}\n", (i + 1) % n(64))), plain),
        9 => (few, format!("{plain}{}", " ".repeat(n(16384) - plain.len()))),
        10 => (few, format!("{}{}", "P();".repeat(511), ["PRINT ENDL;", "P();", "Held(\"\");"][past])),
        11 => (few, format!("{}(x) := Held(x);", "N".repeat(n(32)))),
        12 => (few, format!("PRINT Held({});", "x".repeat(n(32)))),
        13 => (few, format!("PRINT \"{}\";", "s".repeat(n(32)))),
        14 => (few, format!("Held(\"{}\");", "s".repeat(n(32)))),
        15 => (few, format!("PRINT {};", nested("(", "Held(x)", ")"))),
        16 => (few, nested("{", "P();", "}")),
        17 => (few, format!("PRINT {}Held(x);", "!".repeat(n(32)))),
        18 => (single, format!("PRINT {};", nested("EX(x,", "Held(x)", ")"))),
        19 => (single, format!("PRINT {};", nested("FA(x,", "Held(x)", ")"))),
        20 => (few, format!("PRINT {};", nested("TC(", "On(x,y)", ")"))),
        21 => (few, nested("IF TRUE() {", "P();", "}")),
        22 => (single, format!("{}P();{}", repeated(n(32), |i| format!("FOR v{i} IN Held(x) {{")), "}".repeat(n(32)))),
        23 => (single, format!("{{IF TRUE() {{PRINT {}{}Held(x){};}}}}", "!".repeat(n(2)), "!(".repeat(14), ")".repeat(14))),
        24 => (few, format!("PRINT EX({}, On(a0,a1));", names(0, n(4)))),
        25 => (few, format!("PRINT [\"\"] {};", ["TC(On(x,y))"; 17][..n(16)].join("&"))),
        26 => (few, format!("PRINT {}On(x,y){};", "TCFAST(".repeat(n(16)), ")".repeat(n(16)))),
        27 => (few, repeated(n(16) - 2, |i| format!("N{i}(x) := Held(x);"))),
        28 => (repeated(60, |i| format!("Held e{i}\n")), repeated(n(4), |i| format!("Held(\"s{i}\");"))),
        29 => (few, format!("PRINT TRUE({});", names(0, n(3)))),
        30 => (few, format!("R({});", names(0, n(3)))),
        31 => (few, format!("FOR c IN TRUE({}) {{ PRINT c; }}", names(0, n(1)))),
        32 => (few, format!("PRINT EX(a0,a1,a2, TC(TRUE({})));", names(0, n(2)))),
        33 => (few, format!("PRINT {}{}P();", "!".repeat(n(3)), "P()&".repeat(510))),
        34 => (few, format!("PRINT {}{}Held(x);", "!".repeat(n(5)), "On(x,y)|".repeat(291))),
        35 => (few, format!("{}PRINT {}ENDL;", ["P();", "R(x);", "{P();}"][past], "ENDL,".repeat(1020))),
        // a byte 13 or 10 is the last byte, or the last within the limit
        36 => (format!("{:#<width$}\r\nOn a b\r\n", "", width = n(32768) - 10), plain),
        37 => (format!("{:#<width$}\r\nOn a b\r", "", width = n(32768) - 9), plain),
        38 => (format!("{:#<width$}\r\nOn a b\r\n\r", "", width = n(32768) - 11), plain),
        39 => (format!("Held {}\n", "a".repeat(32)), format!("PRINT @\"{}\"(x);", "a".repeat(n(32)))),
        40 => (format!("Held {}\nHeld a{}\n", "a".repeat(n(32)), "b".repeat(30)), format!("PRINT @\"^(a+|ab{}b+)$\"(x);", "b".repeat(15))),
        41 => (few, format!("{}{}", "PRINT @\"1\"(x);".repeat(292), ["PRINT ENDL;", "P();", "Held(\"\");"][past])),
        42 => (few, format!("PRINT {};", nested("(", "@\"((1))\"(x)", ")"))),
        43 => (repeated(10, |i| format!("Held e{}\n", "c".repeat(i))), format!("PRINT @\"^ec{{0,{}}}$\"(x);", n(8))),
        44 => (repeated(10, |i| format!("Held e{}\n", "c".repeat(i))), format!("PRINT @\"^e(c){{{},8}}$\"(x);", n(8))),
        45 => (few, format!("PRINT EX({}, P(){});", names(0, n(4)), repeated(n(4), |i| format!(" | @\"C\"(a{i})")))),
        46 => (repeated(n(64), |i| format!("Held e{i}\n")), "PRINT @\"[13]$\"(x); FOR c IN @\"^e[^5-9]{1,1}$\"(x) { Held(x) := Held(x) & !@\"6\"(x) & @\"e\"(c); }".into()),
        // a relation's page: 32,767 bytes, 32,768 and 32,769, or 32,768 with each tuple of the universe
        47 => (two_bytes(63), format!("On(x,y) := A(x) & A(y) & (x < \"57\" | x = \"57\" & y < \"48\"); On(\"{:>width$}\",\"00\");", "s", width = n(8))),
        48 => (two_bytes(n(63)), "S(\"\",x) := TRUE(x); S(x,y) := TRUE(x,y);".into()),
        49 => (repeated(n(16), |i| format!("A {}\n", (b'a' + i as u8) as char)), "T(x,y,z) := TRUE(x,y,z);".into()),
        // a fact as often as facts have room for it, each pair in falling order, and each tuple of three columns
        50 => ("P\n".repeat(16385)[..n(32768)].into(), "PRINT [\"P\"] P(); P() := FALSE();".into()),
        51 => (repeated(n(64) * n(64), |i| format!("On {} {}\n", one_byte(n(64) - 1 - i / n(64)), one_byte(n(64) - 1 - i % n(64)))), "On(x,y) := On(x,y) & x < y;".into()),
        52 => (repeated(n(64), |i| format!("A e{i}\n")), "T(x,y,z); T(\"e0\",x,y) := FALSE(x,y);".into()),
        // literals by their numbers and by their digits
        53 => (few, format!("PRINT {}/3;", n(999_999))),
        54 => (few, format!("PRINT {}, {:0>32};", "0".repeat(n(32)), 999_999)),
        55 => (few, format!("PRINT 1 + {};", "9".repeat(n(32)))),
        // summands: of a top, of a bottom, and on the right of a sign
        56 => (few, format!("PRINT {};", ones(n(8)))),
        57 => (few, format!("PRINT 2/{};", counts(n(8)))),
        58 => (few, format!("IF {} <= {}/{} {{ PRINT {}/{}; }}", ones(8), counts(8), ones(n(8)), ones(8), ones(8))),
        59 => (few, format!("PRINT {}#({} = 8)+1;", "1+".repeat(n(8) - 2), ones(8))),
        // levels that counts open, and summands at the last level
        60 => (few, format!("PRINT {}On(x,y){});", "#(".repeat(n(32)), ") > 0".repeat(n(32) - 1))),
        61 => (few, format!("PRINT {}1 = 0+#(P()){};", "(".repeat(n(32) - 1), ")".repeat(n(32) - 1))),
        62 => (few, format!("PRINT {}{}#(P()) = 1{};", "(".repeat(n(32)), "1+".repeat(8), ")".repeat(n(32)))),
        63 => (few, format!("PRINT {}{}1 = 8{};", "(".repeat(n(32)), "1+".repeat(7), ")".repeat(n(32)))),
        64 => (few, format!("PRINT {}1000000 = 1{};", "(".repeat(n(32)), ")".repeat(n(32)))),
        // what one count, and one statement, may hold
        65 => (few, format!("PRINT #(TRUE({}));", names(0, n(3)))),
        66 => (few, format!("PRINT {};", (0..n(4)).map(|i| format!("#(On(a{i},_))")).collect::<Vec<_>>().join("+"))),
        67 => (few, format!("PRINT 0{};", ",#(TC(On(x,y)))".repeat(n(16)))),
        68 => (few, format!("{}PRINT {};", "PRINT 1;".repeat(680), ["1/2+3", "#(P())", "1,2,3,4"][past])),
        69 => (repeated(n(64), |i| format!("A e{i}\n")), format!("PRINT {0}/999999, [\"t\"] {0}/2 > {0}/3, \" \", #(A(x))/#(x <= y);", ["#(TRUE(x,y,z))"; 8].join("+"))),
        _ => {
            let tables = repeated(16, |r| format!("R{r} e0 e0 e0\n"));
            (format!("{tables}{}", repeated(n(64), |i| format!("R0 e{i} e{} e0\n", (i + 1) % 62))), "R1(x,y,z) := R0(x,z,y); PRINT R1(x,y,z);".into())
        }
    };
    (facts.into_bytes(), query.into_bytes())
}

/// Several faults of different rows in one text, in any order: which of them is met?
fn faults(r: &mut Random) -> (Vec<u8>, Vec<u8>) {
    let deep = format!("PRINT {}P(){};", "(".repeat(33), ")".repeat(33));
    let wide = format!("PRINT {}TC(On(x,y));", "TC(On(x,y))&".repeat(16));
    let relations = repeated(15, |i| format!("N{i}(x) := Held(x);"));
    let elements = repeated(64, |i| format!("Held(\"s{i}\");"));
    let digits = format!("PRINT {};", "0".repeat(33));
    let ninth = format!("PRINT {}#(On(x));", "1+".repeat(8));
    let ninth_deep = format!("PRINT {}{}#(P()) = 1{};", "(".repeat(32), "1+".repeat(8), ")".repeat(32));
    let large_deep = format!("PRINT {}1000000 = 1{};", "(".repeat(33), ")".repeat(33));
    let closures = format!("PRINT #({}TC(On(x,y)));", "TC(On(x,y))&".repeat(16));
    let lines = [
        "On a b", "Held a", "T a b c", "P", "# c", " ", "On \"a b\" c", ".", "Held \x01", "# \x7f", "7Y a", " Held a", "On\"a\" b", "IF a", "Held \"a",
        "Held a\"", "Held \"a\"b", "On a", "On", "T a b c d", "T a b c d\"", "T a b c \"d", "T a b \"c d", "On a b \"c", "On \"a\" \"b\" \"c\"", "P a",
    ];
    let statements = [
        "On(x,y) := On(y,x);", "P();", "PRINT Held(x), ENDL;", "FOR c IN Held(x) { PRINT c; }", "{ Held(\"z\"); }", "$", "5.", "PRINT \"open", "/* open",
        "PRINT ABCDEFGHIJKLMNOPQRSTUVWXYZABCDEFG(x);", "\x01", "PRINT \"\x02\";", "PRINT", "On(x,y) := ;", "P() := P() -> P() -> P();", "x = y;", "ELSE",
        "TO();", "PRINT On;", "PRINT x;", "FOR x IN Held(y) { P(); }", "FOR c IN Held(c) { P(); }", "PRINT c;", "c(x);", "PRINT On(On,x);", "P(x);",
        "PRINT On(x);", "PRINT New(x,y,z,a);", "Held(x) := On(x,y);", "PRINT TC(On(x,x));", "IF Held(x) { On(x); }", "WHILE P() { Held(x) := P(); }",
        "FOR d IN On(x,y) { P(); }", "PRINT TRUE(x,y,z,a);", "PRINT EX(x,y,z,a,b, On(x));", "PRINT EX(x,y,z,a,b, P());", &deep, &wide, &relations, &elements,
        "PRINT @\"a\"(x) & Held(x);", "@", "PRINT @(x);", "PRINT @\"a\"();", "PRINT @\"a\"(x,y);", "FOR c IN Held(x) { PRINT @c(x); }", "PRINT @\"(\"", "@\"*\"(x);",
        "PRINT @\"\"(x);", "PRINT @\"a**\"(x);", "IF FALSE() { PRINT @\"(\"(x); }", "PRINT @\"a\"(_) & @\"[a\"(\"a\");", "PRINT @\"a|\"(On);", "FOR x IN @\")\"(y) { P(); }",
        "FOR c IN @\"a\"(c) { P(); }", "PRINT @\"a\"(On);", "P() := @\"a\"(x);", "P() := @\"\\\"(x);", "IF @\"a\"(x) { P(); }", "PRINT @\"a{0,9}\"(x) & On(x);",
        "PRINT #(Held(x)) / 2;", "PRINT 1000000;", "PRINT 1000000", "PRINT 1 1000000;", "PRINT On(1000000);", "PRINT #(1000000 = On(x));", "5", "PRINT 1/2/3;", "Held(x) := #(Held(x)) = 1;",
        "PRINT #(On(x));", "PRINT #(x());", "PRINT #(Held(c)), #(@\"(\"(x));", "PRINT #(TRUE(x,y,z,a));", "PRINT #(TRUE(x,y,z,a)) + #(TRUE(b));", "IF #(TC(Held(x))) = 1 { P(); }", &digits, &ninth,
        &ninth_deep, &large_deep, &closures,
    ];
    // the first 7 lines and 5 statements have no fault
    let most = if r.one_in(2) { lines.len() } else { 7 };
    let facts: Vec<&str> = (0..r.below(8)).map(|_| if r.one_in(3) { lines[r.below(most)] } else { lines[r.below(7)] }).collect();
    let query: Vec<&str> = (0..1 + r.below(6)).map(|_| if r.one_in(2) { *r.pick(&statements) } else { statements[r.below(5)] }).collect();
    (facts.join("\n").into_bytes(), query.join("\n").into_bytes())
}

/// Calls of the chain: mostly a name of pairs and elements of its lines.
fn chains(r: &mut Random, facts: &[u8]) -> Vec<Chain> {
    let words = |l: &[u8]| -> Vec<Vec<u8>> { l.split(|b| b" \t\r\"".contains(b)).filter(|w| !w.is_empty()).map(<[u8]>::to_vec).collect() };
    let lines: Vec<Vec<Vec<u8>>> = facts.split(|&b| b == 10).map(words).collect();
    let pairs: Vec<Vec<Vec<u8>>> = lines.iter().filter(|l| l.len() == 3).cloned().collect();
    let mut found = Vec::new();
    for _ in 0..4 {
        let from = if pairs.is_empty() || r.one_in(8) { &lines } else { &pairs };
        let name = r.pick(from).first().map_or(b"On".to_vec(), Vec::clone);
        let same: Vec<&Vec<Vec<u8>>> = from.iter().filter(|l| l.first() == Some(&name)).collect();
        let mut element = || match same.len() {
            0 => b"absent".to_vec(),
            _ if r.one_in(16) => r.pick(&ELEMENTS).as_bytes().to_vec(),
            _ => r.pick(&same).get(1 + r.below(2)).map_or(b"absent".to_vec(), Vec::clone),
        };
        let (first, second) = (element(), element());
        let second = if r.one_in(6) { first.clone() } else { second };
        found.push(Chain { name, first, second, room: *r.pick(&[65, 65, 65, 66, 64, 200, 0]) });
    }
    found
}

/// More nodes than this a run should not visit in a plain evaluation.
const NODES: u64 = 1_000_000;

fn nodes(facts: &[u8], query: &[u8]) -> u64 {
    accept(facts, query).map_or(1, |w| w.nodes())
}

/// Half of the lines, again and again, until there are so few elements that a step of the query is short: its nodes then.
fn fewer_facts(facts: &mut Vec<u8>, query: &[u8]) -> u64 {
    loop {
        let nodes = nodes(facts, query);
        if facts.is_empty() || nodes <= NODES / 10 {
            return nodes;
        }
        let lines = facts.split_inclusive(|&b| b == 10).count();
        *facts = facts.split_inclusive(|&b| b == 10).take(lines / 2).collect::<Vec<_>>().concat();
    }
}

/// The comparison of this number: first each limit below, at and above it, then limits, shapes, strings entered and printed, relations that
/// grow and shrink, sums and ratios, many chains, closures, and random texts, some damaged and some saved with CR LF.
pub fn texts(number: u64) -> Texts {
    let r = &mut Random::new(number);
    let limits = 3 * LIMITS as u64;
    if number >= limits && r.one_in(5) {
        return shaped(r);
    }
    if number >= limits && r.one_in(8) {
        return entering(r);
    }
    if number >= limits && r.one_in(8) {
        return resizing(r);
    }
    if number >= limits && r.one_in(7) {
        return sharing(r);
    }
    if number >= limits && r.one_in(6) {
        return tying(r);
    }
    if number >= limits && r.one_in(5) {
        return closing(r);
    }
    let (mut facts, mut query) = match number {
        k if k < limits => limit((k / 3) as usize, (k % 3) as usize),
        _ if r.one_in(12) => limit(r.below(LIMITS), r.below(3)),
        _ if r.one_in(5) => faults(r),
        _ if r.one_in(8) => picked::texts(r),
        _ => (self::facts(r), self::query(r)),
    };
    if number >= limits && r.one_in(5) {
        damage(r, &mut query);
    }
    if number >= limits && r.one_in(10) {
        damage(r, &mut facts);
    }
    if number >= limits && r.one_in(60) {
        query = saved::query(r, &query);
    }
    let budget = if number < limits {
        1000
    } else {
        let nodes = fewer_facts(&mut facts, &query);
        (*r.pick(&[0, 1, 2, 3, 5, 10, 20, 50, 200])).min(NODES / nodes) as u32
    };
    facts = match r.below(24) {
        0..=3 if number >= limits => saved::facts(r, &facts),
        4..=6 if number >= limits => saved::spoiled(r, &facts),
        _ => facts,
    };
    let spare = if number >= limits && r.one_in(8) { -1 } else { r.below(4) as i64 };
    let room = if number >= limits && r.one_in(3) { r.below(60) } else { 4000 };
    let chains = chains(r, &facts);
    Texts { facts, query, budget, spare, room, elements: true, chains, closing: None }
}

/// Shapes whose steps are short enough.
fn shaped(r: &mut Random) -> Texts {
    let (facts, query, nodes) = loop {
        let (facts, query) = shapes::texts(r);
        let nodes = nodes(&facts, &query);
        if nodes <= 4 * NODES {
            break (facts, query, nodes);
        }
    };
    let facts = if r.one_in(4) { saved::facts(r, &facts) } else { facts };
    let budget = (*r.pick(&[2, 5, 10, 50])).min(8 * NODES / nodes) as u32;
    let room = *r.pick(&[0, 10, 100, 1000, 40_000, 40_000]);
    Texts { facts, query, budget, spare: r.below(4) as i64, room, elements: r.one_in(30), chains: Vec::new(), closing: None }
}

/// Strings that are entered and printed, with budgets that mostly reach the PRINTs; a third of the buffers are short for them.
fn entering(r: &mut Random) -> Texts {
    let (facts, query) = entered::texts(r);
    let facts = if r.one_in(8) { saved::facts(r, &facts) } else { facts };
    let budget = *r.pick(&[4, 8, 50, 200, 200]);
    let room = if r.one_in(3) { r.below(60) } else { 4000 };
    let chains = chains(r, &facts);
    Texts { facts, query, budget, spare: r.below(4) as i64, room, elements: true, chains, closing: None }
}

/// Relations that grow and shrink, in runs that end at any step, by the budget, by the buffer or done.
fn resizing(r: &mut Random) -> Texts {
    let (facts, query) = resized::texts(r);
    let facts = if r.one_in(8) { saved::facts(r, &facts) } else { facts };
    let steps = *r.pick(&[0, 1, 2, 3, 4, 5, 6, 7, 8, 9, 10, 12, 15, 20, 40, 100]);
    let budget = steps.min(8 * NODES / nodes(&facts, &query)) as u32;
    let room = if r.one_in(2) { r.below(40) } else { 4000 };
    let spare = if r.one_in(12) { -1 } else { r.below(4) as i64 };
    Texts { facts, query, budget, spare, room, elements: r.one_in(8), chains: Vec::new(), closing: None }
}

/// Sums and ratios whose steps are short enough; some damaged.
fn sharing(r: &mut Random) -> Texts {
    let (facts, query, nodes) = loop {
        let (facts, mut query) = shares::texts(r);
        if r.one_in(12) {
            damage(r, &mut query);
        }
        let nodes = nodes(&facts, &query);
        if nodes <= NODES {
            break (facts, query, nodes);
        }
    };
    let facts = if r.one_in(12) { saved::facts(r, &facts) } else { facts };
    let budget = (*r.pick(&[1, 3, 10, 20, 50, 100])).min(8 * NODES / nodes) as u32;
    let room = if r.one_in(4) { r.below(30) } else { 4000 };
    let spare = if r.one_in(20) { -1 } else { r.below(4) as i64 };
    Texts { facts, query, budget, spare, room, elements: r.one_in(8), chains: Vec::new(), closing: None }
}

/// Many chains: the run is there for the tables that they are over.
fn tying(r: &mut Random) -> Texts {
    let (facts, query, chains) = ties::texts(r);
    let facts = if r.one_in(12) { saved::facts(r, &facts) } else { facts };
    Texts { facts, query, budget: 1, spare: r.below(4) as i64, room: 4000, elements: r.one_in(8), chains, closing: None }
}

/// The manual's programs for the closure, in runs that end at any step of them, or done.
fn closing(r: &mut Random) -> Texts {
    let (facts, query, e) = closed::texts(r);
    let facts = if r.one_in(12) { saved::facts(r, &facts) } else { facts };
    let most = *r.pick(&[8, 16, 32, 140]);
    let steps = if r.one_in(3) { 1000 } else { r.below(most) as u64 };
    let budget = steps.min(8 * NODES / nodes(&facts, &query)) as u32;
    let room = if r.one_in(6) { r.below(100) } else { 40_000 };
    Texts { facts, query, budget, spare: r.below(4) as i64, room, elements: r.one_in(8), chains: Vec::new(), closing: Some(e) }
}
