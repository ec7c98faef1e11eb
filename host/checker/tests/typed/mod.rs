//! Rows for rules as people type them: texts, and the records or the refusals that come of them.
//! Every expected record is written out from the specification.

// Each test file uses some of these.
#![allow(dead_code)]

/// A text, and the records that are made of it: kind and operands of each formula, and the rules.
pub struct Row {
    pub text: &'static str,
    pub formulas: Vec<[u8; 3]>,
    pub rules: Vec<u8>,
}

impl Row {
    /// The two blocks.
    pub fn blocks(&self) -> Vec<u8> {
        let records: Vec<u8> =
            self.formulas.iter().flat_map(|&[kind, a, b]| [kind, a, b, 0]).collect();
        [block(3, self.formulas.len(), &records), block(4, self.rules.len(), &self.rules)].concat()
    }
}

/// A block of 512 bytes: kind, count, a first record of 0, the records, and at the end the sum of
/// all that.
pub fn block(kind: u8, count: usize, records: &[u8]) -> Vec<u8> {
    let mut block = vec![kind, count as u8, 0, 0];
    block.extend(records);
    block.resize(510, 0);
    let sum: u32 = block.iter().map(|&byte| u32::from(byte)).sum();
    block.extend([(sum % 256) as u8, (sum / 256 % 256) as u8]);
    block
}

/// A row of one rule, which is the last formula.
fn one(text: &'static str, formulas: &[[u8; 3]]) -> Row {
    Row { text, formulas: formulas.to_vec(), rules: vec![formulas.len() as u8 - 1] }
}

/// A name, and its denial.
fn is(name: u8) -> [u8; 3] {
    [3, name, 0]
}

fn not(name: u8) -> [u8; 3] {
    [4, name, 0]
}

const TRUE: [u8; 3] = [1, 0, 0];
const FALSE: [u8; 3] = [2, 0, 0];

fn and(a: u8, b: u8) -> [u8; 3] {
    [5, a, b]
}

fn or(a: u8, b: u8) -> [u8; 3] {
    [6, a, b]
}

fn next(a: u8) -> [u8; 3] {
    [7, a, 0]
}

fn until(a: u8, b: u8) -> [u8; 3] {
    [8, a, b]
}

fn always(a: u8) -> [u8; 3] {
    [9, a, 0]
}

/// Texts that are read.
pub fn rows() -> Vec<Row> {
    let mut rows = vec![Row { text: "", formulas: vec![], rules: vec![] }];
    rows.extend(each_part());
    rows.extend(grouping());
    rows.extend(denied());
    rows.extend(temporal());
    rows.extend(several_lines());
    rows.extend(spaces());
    rows
}

/// Each name, constant and connective by itself.
fn each_part() -> Vec<Row> {
    vec![
        one("p0\n", &[is(0)]),
        one("p9\n", &[is(9)]),
        one("p10\n", &[is(10)]),
        one("p15\n", &[is(15)]),
        one("p16\n", &[is(16)]),
        one("p31\n", &[is(31)]),
        one("p32\n", &[is(32)]),
        one("p40\n", &[is(40)]),
        one("p47\n", &[is(47)]),
        one("TRUE\n", &[TRUE]),
        one("FALSE\n", &[FALSE]),
        one("!p5\n", &[not(5)]),
        one("p1 & p2\n", &[is(1), is(2), and(0, 1)]),
        one("p1 | p2\n", &[is(1), is(2), or(0, 1)]),
        one("p1 -> p2\n", &[not(1), is(2), or(0, 1)]),
        one("AX p1\n", &[is(1), next(0)]),
        one("AG p1\n", &[is(1), always(0)]),
        one("AF p1\n", &[TRUE, is(1), until(0, 1)]),
        one("A [ p1 U p2 ]\n", &[is(1), is(2), until(0, 1)]),
        one("(p1)\n", &[is(1)]),
    ]
}

/// What binds closer, and to which side chains group.
fn grouping() -> Vec<Row> {
    vec![
        one("p1 & p2 & p3\n", &[is(1), is(2), and(0, 1), is(3), and(2, 3)]),
        one("p1 & (p2 & p3)\n", &[is(1), is(2), is(3), and(1, 2), and(0, 3)]),
        one("p1 | p2 | p3\n", &[is(1), is(2), or(0, 1), is(3), or(2, 3)]),
        one("p1 | (p2 | p3)\n", &[is(1), is(2), is(3), or(1, 2), or(0, 3)]),
        one("p1 -> p2 -> p3\n", &[not(1), not(2), is(3), or(1, 2), or(0, 3)]),
        one("p1 -> (p2 -> p3)\n", &[not(1), not(2), is(3), or(1, 2), or(0, 3)]),
        one("(p1 -> p2) -> p3\n", &[is(1), not(2), and(0, 1), is(3), or(2, 3)]),
        one(
            "p1 -> p2 -> p3 -> p4\n",
            &[not(1), not(2), not(3), is(4), or(2, 3), or(1, 4), or(0, 5)],
        ),
        one("p1 | p2 & p3\n", &[is(1), is(2), is(3), and(1, 2), or(0, 3)]),
        one("(p1 | p2) & p3\n", &[is(1), is(2), or(0, 1), is(3), and(2, 3)]),
        one("p1 & p2 | p3\n", &[is(1), is(2), and(0, 1), is(3), or(2, 3)]),
        one("p1 & (p2 | p3)\n", &[is(1), is(2), is(3), or(1, 2), and(0, 3)]),
        one("p1 & p2 | p3 & p4\n", &[is(1), is(2), and(0, 1), is(3), is(4), and(3, 4), or(2, 5)]),
        one("p1 | p2 & p3 | p4\n", &[is(1), is(2), is(3), and(1, 2), or(0, 3), is(4), or(4, 5)]),
        one("p1 -> p2 | p3\n", &[not(1), is(2), is(3), or(1, 2), or(0, 3)]),
        one("p1 -> p2 & p3\n", &[not(1), is(2), is(3), and(1, 2), or(0, 3)]),
        one("p1 | p2 -> p3\n", &[not(1), not(2), and(0, 1), is(3), or(2, 3)]),
        one("p1 & p2 -> p3\n", &[not(1), not(2), or(0, 1), is(3), or(2, 3)]),
        one("!p1 & p2\n", &[not(1), is(2), and(0, 1)]),
        one("!p1 | p2\n", &[not(1), is(2), or(0, 1)]),
        one("!p1 -> p2\n", &[is(1), is(2), or(0, 1)]),
        one("p1 & !p2\n", &[is(1), not(2), and(0, 1)]),
        one("AX p0 & p1\n", &[is(0), next(0), is(1), and(1, 2)]),
        one("AX (p0 & p1)\n", &[is(0), is(1), and(0, 1), next(2)]),
        one("AG p0 | p1\n", &[is(0), always(0), is(1), or(1, 2)]),
        one("AF p0 & p1\n", &[TRUE, is(0), until(0, 1), is(1), and(2, 3)]),
        one("p1 & AX p0\n", &[is(1), is(0), next(1), and(0, 2)]),
        one("p1 -> AX p0 & p2\n", &[not(1), is(0), next(1), is(2), and(2, 3), or(0, 4)]),
        one("A [ p0 U p1 ] & p2\n", &[is(0), is(1), until(0, 1), is(2), and(2, 3)]),
    ]
}

/// `!` and the left of `->` pushed down.
fn denied() -> Vec<Row> {
    vec![
        one("!!p5\n", &[is(5)]),
        one("!!!p5\n", &[not(5)]),
        one("!TRUE\n", &[FALSE]),
        one("!FALSE\n", &[TRUE]),
        one("!!TRUE\n", &[TRUE]),
        one("!(p1)\n", &[not(1)]),
        one("!(p1 & p2)\n", &[not(1), not(2), or(0, 1)]),
        one("!(p1 | p2)\n", &[not(1), not(2), and(0, 1)]),
        one("!(p1 -> p2)\n", &[is(1), not(2), and(0, 1)]),
        one("!!(p1 -> p2)\n", &[not(1), is(2), or(0, 1)]),
        one("!(!p1 & !!p2)\n", &[is(1), not(2), or(0, 1)]),
        one("!(TRUE & FALSE)\n", &[FALSE, TRUE, or(0, 1)]),
        one("TRUE -> FALSE\n", &[FALSE, FALSE, or(0, 1)]),
        one("!(p1 -> p2 -> p3)\n", &[is(1), is(2), not(3), and(1, 2), and(0, 3)]),
        one("!((p1 -> p2) -> p3)\n", &[not(1), is(2), or(0, 1), not(3), and(2, 3)]),
        one("!p1 -> !p2\n", &[is(1), not(2), or(0, 1)]),
        one(
            "!(p0 -> (p1 -> p2) & !p3)\n",
            &[is(0), is(1), not(2), and(1, 2), is(3), or(3, 4), and(0, 5)],
        ),
        one(
            "(p0 | !p1 -> p2 & p3) -> p4\n",
            // The left is denied: p0 or not p1, and not both p2 and p3.
            &[is(0), not(1), or(0, 1), not(2), not(3), or(3, 4), and(2, 5), is(4), or(6, 7)],
        ),
    ]
}

/// Temporal parts inside each other.
fn temporal() -> Vec<Row> {
    vec![
        one("AX !p0\n", &[not(0), next(0)]),
        one("AX AG p0\n", &[is(0), always(0), next(1)]),
        one("AF AG p3\n", &[TRUE, is(3), always(1), until(0, 2)]),
        one("AF AF p3\n", &[TRUE, TRUE, is(3), until(1, 2), until(0, 3)]),
        one("AG AF p3\n", &[TRUE, is(3), until(0, 1), always(2)]),
        one("AX AX AX p7\n", &[is(7), next(0), next(1), next(2)]),
        one("AG (p0 -> AF p1)\n", &[not(0), TRUE, is(1), until(1, 2), or(0, 3), always(4)]),
        one("p0 -> p1 -> AX p2\n", &[not(0), not(1), is(2), next(2), or(1, 3), or(0, 4)]),
        one(
            "A [ p0 -> p1 U p2 | p3 ]\n",
            &[not(0), is(1), or(0, 1), is(2), is(3), or(3, 4), until(2, 5)],
        ),
        one(
            "A [ A [ p0 U p1 ] U A [ p2 U p3 ] ]\n",
            &[is(0), is(1), until(0, 1), is(2), is(3), until(3, 4), until(2, 5)],
        ),
        one(
            "A [ (p0) U AX p1 & AF p2 ]\n",
            &[is(0), is(1), next(1), TRUE, is(2), until(3, 4), and(2, 5), until(0, 6)],
        ),
        // The first rule of the handshake pair, whose host has labels from p16 on.
        one(
            "AG (p0 & p18 -> AX (p1 | !p19))\n",
            &[not(0), not(18), or(0, 1), is(1), not(19), or(3, 4), next(5), or(2, 6), always(7)],
        ),
        one(
            "AG (p18 & !p1 -> A [ !p1 U p19 ])\n",
            &[not(18), is(1), or(0, 1), not(1), is(19), until(3, 4), or(2, 5), always(6)],
        ),
    ]
}

/// Lines one behind the other: nothing is shared.
fn several_lines() -> Vec<Row> {
    vec![
        Row { text: "p0\np1\n", formulas: vec![is(0), is(1)], rules: vec![0, 1] },
        Row { text: "p0\np0\n", formulas: vec![is(0), is(0)], rules: vec![0, 1] },
        Row {
            text: "p0 & p0\nAX p0\np0 & p0\n",
            formulas: vec![is(0), is(0), and(0, 1), is(0), next(3), is(0), is(0), and(5, 6)],
            rules: vec![2, 4, 7],
        },
        Row {
            text: "AF p1\n!TRUE\np2 -> p3\n",
            formulas: vec![TRUE, is(1), until(0, 1), FALSE, not(2), is(3), or(4, 5)],
            rules: vec![2, 3, 6],
        },
    ]
}

/// Spaces around words and signs, and none where none is needed.
fn spaces() -> Vec<Row> {
    let disjunction = [not(1), is(2), or(0, 1)];
    vec![
        one("  p0  \n", &[is(0)]),
        one("AX(p0)\n", &[is(0), next(0)]),
        one("AX!p0\n", &[not(0), next(0)]),
        one("AX   p0\n", &[is(0), next(0)]),
        one("A[(p0)U(p1)]\n", &[is(0), is(1), until(0, 1)]),
        one("A[p0 U p1]\n", &[is(0), is(1), until(0, 1)]),
        one("A[!p0 U!p1]\n", &[not(0), not(1), until(0, 1)]),
        one("A   [   p0   U   p1   ]\n", &[is(0), is(1), until(0, 1)]),
        one("p1->p2\n", &disjunction),
        one(" p1 ->p2 \n", &disjunction),
        one("p1-> p2\n", &disjunction),
        one("!p1|p2\n", &disjunction),
        one("(((!((p1)))|((p2))))\n", &disjunction),
        one("! p1 | p2\n", &disjunction),
        one("!  !  p0\n", &[is(0)]),
        one("p1&p2|p3\n", &[is(1), is(2), and(0, 1), is(3), or(2, 3)]),
    ]
}

/// Lines that aren't of the grammar, with two spaces between each and the next.
const NO_RULES: [&str; 5] = [
    // What is no token.
    "\t  \tp0  p0\t  p0\tp1  p0\r  \r  p0\u{b}  p0\u{c}  \0  p0\0  p0;  # p0  -- p0  p0 -- p1  p0 <-> p1  \
     p0 = p1  p0 + p1  {p0}  p0_1  p_0  \u{e9}  p0\u{a0}  ~p0  p0 , p1  \"p0\"  p0.  p0 ? p1 : p2  p0 xor p1",
    // Words that are near.
    "p01  p00  p010  p48  p49  p50  p99  p100  p256  p304  p65536  p4294967296  p18446744073709551616  \
     p  p 0  p-1  p+1  P0  p0p1  0  0p  p0 0  p4 7  q0  true  True  TRUE1  TRUEFALSE  T  false  AXp0  AGp0  \
     AFp0  Ap0  EXp0  ax p0  Ax p0  AXAX p0  A X p0  E X p0  AU  A[p0Up1]  A[p0U p1]  A[p0 Up1]  E[p0Up1]  \
     AX0  XA p0",
    // Signs that are near.
    "p0 - > p1  p0 - p1  p0 > p1  p0 -  p0 >  p0 --> p1  p0 ->> p1  p0 >- p1  p0 && p1  p0 || p1",
    // Words and signs that don't make a rule.
    "p0 p1  p0 TRUE  p0 !  p0 ! p1  p0 AX p1  p0 (p1)  (p0) p1  (p0)(p1)  !  AX  AG  AF  EX  ! &  & p0  p0 &  \
     p0 |  p0 ->  -> p0  | p0  p0 & & p1  p0 & | p1  p0 -> -> p1  U  p0 U p1  (p0 U p1)  A  E  A p0  E p0  \
     A (p0 U p1)  AX U p0  AX A p0  A AX p0  A A [ p0 U p1 ]  !U",
    // The same with brackets.
    "(  )  ()  ( )  (p0  p0)  )p0(  ((p0)  (p0))  (p0 &)  (& p0)  [  ]  [p0]  []  (p0]  [p0)  A [  A []  \
     A [ p0 ]  A [ p0 U ]  A [ U p1 ]  A [ U ]  A [ p0 U p1  A [ p0 U p1 )  A ( p0 U p1 ]  A [ p0 U p1 U p2 ]  \
     A [ p0 U p1 ] U p2  A [ (p0 U p1) ]  A [ (p0 U p1) U p2 p3 ]  A [ p0 U p1 ] p2  A [ p0 ] [ U p1 ]  \
     AX [ p0 ]  p0 [ p1 U p2 ]  U [ p0 U p1 ]  ! [ p0 U p1 ]  (A) [ p0 U p1 ]  A [ (p0 U) p1 ]  \
     A [ p0 (U) p1 ]  A [ p0 U (p1 ] )",
];

/// Texts that are refused with 19.
pub fn refused_with_19() -> Vec<Vec<u8>> {
    let lines = NO_RULES.iter().flat_map(|lines| lines.split("  "));
    let mut texts: Vec<Vec<u8>> = lines.map(|line| format!("{line}\n").into_bytes()).collect();
    // No newline at the end; lines without a rule.
    let ends = ["p0", " ", "AX", "p0\np1", "p0\n ", "p0\n\n", "\n", "\n\n", " \n", "      \n"];
    let empty = ["\np0\n", "p0\n \np1\n", "p0\n\np1\n", "p0\r\np1\r\n"];
    // A rule doesn't go on in the next line.
    let broken = ["p0 &\np1\n", "(p0\n)\n", "p0\n& p1\n", "A [ p0 U\np1 ]\n", "AX\np0\n"];
    let torn = ["p0 -\n> p1\n", "T\nRUE\n", "p1\n5\n"];
    let whole = ends.iter().chain(&empty).chain(&broken).chain(&torn);
    texts.extend(whole.map(|text| text.as_bytes().to_vec()));
    texts.extend([b"\xFF\n".to_vec(), b"p0\xA0\n".to_vec(), b"p0\xC2\xA0\n".to_vec()]);
    texts
}

/// Lines that are 20, with two spaces between each and the next.
const SOME_PATH: [&str; 3] = [
    // Some path.
    "EX p0  EG p0  EF p0  E [ p0 U p1 ]  E[(p0)U(p1)]  AX EX p0  EX AX p0  p0 & EG p1  p0 -> EF p1  \
     EF p0 -> p1  A [ EX p0 U p1 ]  A [ p0 U EX p1 ]  E [ AX p0 U p1 ]  (EX p0)  EX TRUE  EX !p0  !EX p0  \
     !E [ p0 U p1 ]",
    // A temporal part under `!`.
    "! AX p0  !!AX p0  !!!!AX p0  !AG p0  !AF p0  !A [ p0 U p1 ]  !(AX p0)  !(p0 & AX p1)  !(p0 | p1 & AG p2)  \
     !(p0 -> AX p1)  !(AX p0 -> p1)  !!(p0 -> AX p1)  AG !AX p0  AX (p0 & !AG p1)  p0 & !(p1 | !(p2 & AG p3))  \
     A [ !AX p0 U p1 ]  !(TRUE | AF TRUE)  p0 -> !AX p1",
    // A temporal part left of `->`.
    "AX p0 -> p1  AG p0 -> p1  AF p0 -> p1  A [ p0 U p1 ] -> p2  p0 -> AX p1 -> p2  (p0 -> AX p1) -> p2  \
     p0 & AX p1 -> p2  p0 | (p1 & AF p2) -> p3  AG (AF p0 -> AF p1)  p0 -> (AX p1 -> p2)  (AX p0) -> p1  \
     !!AX p0 -> p1  !AX TRUE -> p0  A [ p0 U AX p1 -> p2 ]",
];

/// Texts that are refused with 20: "some path", or a temporal part under `!` or left of `->`.
pub fn refused_with_20() -> Vec<Vec<u8>> {
    let lines = SOME_PATH.iter().flat_map(|lines| lines.split("  "));
    lines.map(|line| format!("{line}\n").into_bytes()).collect()
}

/// A name so many times in a chain.
fn chain(sign: &str, names: usize) -> String {
    format!("p0{}", format!("{sign}p0").repeat(names - 1))
}

/// A line in so many brackets: `open` and `close` are in front of and behind each.
fn nested(open: &str, inside: &str, close: &str, count: usize) -> String {
    format!("{}{inside}{}\n", open.repeat(count), close.repeat(count))
}

/// Texts at the limits and past them, each with its refusal, or with 0 and the number of rules.
pub fn at_the_limits() -> Vec<(String, u8, usize)> {
    let mut texts = Vec::new();
    // Brackets that are open together.
    for count in [31, 32, 33, 34, 64, 255, 256, 257, 288, 65_536, 65_568] {
        let number = if count <= 32 { 0 } else { 19 };
        texts.push((nested("(", "p0", ")", count), number, 1));
        texts.push((nested("!(", "p0", ")", count), number, 1));
        texts.push((format!("p1\n{}", nested("(", "p0 & p1", ")", count)), number, 2));
        texts.push((nested("AX (", "p0", ")", count), number, 1));
        // "Some path" is told of behind what is too deep.
        let number = if count <= 32 { 20 } else { 19 };
        texts.push((nested("E [ ", "p0", " U p1 ]", count), number, 0));
        texts.push((nested("E [ p0 U ", "p0", " ]", count), number, 0));
    }
    // Square ones make records: two for each, beside the one inside.
    for (count, number) in [(31, 0), (32, 21), (33, 19)] {
        texts.push((nested("A [ ", "p0", " U p1 ]", count), number, 1));
        texts.push((nested("A [ p0 U ", "p0", " ]", count), number, 1));
    }
    texts.push((nested("A [ (", "p0", ") U p1 ]", 16), 0, 1));
    texts.push((nested("A [ (", "(p0)", ") U p1 ]", 16), 19, 0));
    texts.push((nested("A [ p0 U (", "p0", ") ]", 16), 0, 1));
    for (round, number) in [(16, 0), (17, 19)] {
        let inside = nested("A [ p0 U ", "p0", " ]", 16);
        texts.push((nested("(", inside.trim_end(), ")", round), number, 1));
    }
    // What is closed isn't open; each line begins anew.
    texts.push((format!("{}\n", chain(" & ", 32).replace("p0", "(p0)")), 0, 1));
    texts.push((nested("(", "p0", ")", 32).repeat(16), 0, 16));
    // Records.
    for (records, number) in [(63, 0), (64, 0), (65, 21), (66, 21), (128, 21), (256, 21), (257, 21)]
    {
        texts.push((format!("{}p0\n", "AX ".repeat(records - 1)), number, 1));
        texts.push((format!("{}!p0\n", "AG ".repeat(records - 1)), number, 1));
    }
    for records in [63_usize, 65, 127, 255, 257, 65_537, 65_537 + 64] {
        let (names, number) = (records.div_ceil(2), if records <= 64 { 0 } else { 21 });
        for sign in ["&", " | ", "->"] {
            texts.push((format!("{}\n", chain(sign, names)), number, 1));
        }
        texts.push((format!("{}p0\n", "AF ".repeat(names - 1)), number, 1));
        texts.push((format!("{}AX p0\n", "AF ".repeat(names - 1)), number, 1));
    }
    texts.push((format!("{}\np0\n", chain(" & ", 32)), 0, 2));
    texts.push((format!("{}\np0\np0\n", chain(" & ", 32)), 21, 3));
    texts.push((format!("{}\n{}\n", chain(" -> ", 16), chain(" | ", 17)), 0, 2));
    texts.push((format!("{}\n{}\n", chain(" -> ", 17), chain(" | ", 17)), 21, 2));
    // Rules.
    for rules in [1, 15, 16, 17, 18, 32, 255, 256, 257, 272, 65_536, 65_537, 65_552] {
        let number = if rules <= 16 { 0 } else { 21 };
        texts.push(("p0\n".repeat(rules), number, rules));
        texts.push(("!TRUE\n".repeat(rules), number, rules));
    }
    texts.push(("AX AX AX p0\n".repeat(16), 0, 16));
    texts.push((format!("{}AX AX AX AX p0\n", "AX AX AX p0\n".repeat(15)), 21, 16));
    texts
}

/// How many bytes a long text has, about.
pub const LONG: usize = 1 << 20;

/// Texts of a megabyte, each with its refusal, or with 0 and the number of rules.
pub fn long_texts() -> Vec<(&'static str, String, u8, usize)> {
    let long = |piece: &str| piece.repeat(LONG / piece.len());
    vec![
        ("!", format!("{}p0\n", long("!")), 0, 1),
        ("! and a temporal part", format!("{}AX p0\n", long("!")), 20, 0),
        ("! without an operand", format!("{}\n", long("!")), 19, 0),
        ("AX", format!("{}p0\n", long("AX ")), 21, 0),
        ("AX without an operand", format!("{}\n", long("AX ")), 19, 0),
        ("EX", format!("{}p0\n", long("EX ")), 20, 0),
        ("AF", format!("{}p0\n", long("AF ")), 21, 0),
        ("! and AX in turn", format!("{}p0\n", long("!AX ")), 20, 0),
        ("->", format!("{}p0\n", long("p0->")), 21, 0),
        ("-> without an end", format!("{}\n", long("p0->")), 19, 0),
        ("-> and a temporal part at the end", format!("{}AX p0\n", long("p0->")), 21, 0),
        ("-> and a temporal part before the end", format!("{}AX p0->p0\n", long("p0->")), 20, 0),
        ("&", format!("{}p0\n", long("p0&")), 21, 0),
        ("& and a wrong name at the end", format!("{}p48\n", long("p0&")), 19, 0),
        ("|", format!("{}p0\n", long("p0|")), 21, 0),
        ("| and some path at the end", format!("{}EX p0\n", long("p0|")), 20, 0),
        ("(", format!("{}p0\n", long("(")), 19, 0),
        ("( and )", format!("{}p0{}\n", long("("), long(")")), 19, 0),
        (")", format!("{}\n", long(")")), 19, 0),
        ("A [", format!("{}p0\n", long("A[")), 19, 0),
        ("brackets that are closed", format!("{}p0\n", long("(p0)&")), 21, 0),
        ("spaces", format!("{}\n", long(" ")), 19, 0),
        ("spaces and a rule", format!("{}p0\n", long(" ")), 0, 1),
        ("a rule and spaces", format!("p0{}\n", long(" ")), 0, 1),
        ("letters", format!("{}\n", long("A")), 19, 0),
        ("digits", format!("p{}\n", long("0")), 19, 0),
        ("newlines", long("\n"), 19, 0),
        ("rules", long("p0\n"), 21, 0),
        ("rules, the last without a newline", format!("{}p0", long("p0\n")), 19, 0),
        ("rules and some path at the end", format!("{}EX p0\n", long("p0\n")), 20, 0),
        ("zeros", long("\0"), 19, 0),
        ("no newline", long("p0 & "), 19, 0),
    ]
}

/// Every set of pieces with a fault each, in every order, with a length that is enough or isn't:
/// the text, the length, and the number that is to come, if there is one.
pub fn orders() -> Vec<(String, usize, Option<u8>)> {
    let faults: [(u8, String); 5] = [
        (19, "p48\n".to_string()),
        (20, "p0 & EX p1\n".to_string()),
        (20, "AX p0 -> p1\n".to_string()),
        (21, format!("{}\n", chain(" & ", 33))),
        (21, "TRUE\n".repeat(17)),
    ];
    let mut orders = Vec::new();
    for set in 0..1_u32 << faults.len() {
        let chosen: Vec<&(u8, String)> =
            (0..faults.len()).filter(|at| set >> at & 1 == 1).map(|at| &faults[at]).collect();
        for order in permutations(chosen.len()) {
            let mut text = "p1 | p2\n".to_string();
            text.extend(order.iter().map(|&at| &chosen[at].1[..]));
            let first = chosen.iter().map(|(number, _)| *number).min();
            for length in [0, 1, 512, 1_023] {
                orders.push((text.clone(), length, first.or(Some(12))));
            }
            orders.push((text.clone(), 1_024, first));
            orders.push((text, 1_100, first));
        }
    }
    orders
}

/// Every order of so many things.
fn permutations(count: usize) -> Vec<Vec<usize>> {
    if count == 0 {
        return vec![vec![]];
    }
    let mut all = Vec::new();
    for order in permutations(count - 1) {
        for at in 0..count {
            let mut longer = order.clone();
            longer.insert(at, count - 1);
            all.push(longer);
        }
    }
    all
}

/// The rules of the handshake pair as they are typed; the fourth as printed in the paper or as
/// its words say.
pub fn handshake_text(as_printed: bool) -> String {
    let fourth = if as_printed { "!p18" } else { "p18" };
    format!(
        "AG (p0 & p18 -> AX (p1 | !p19))\n\
         AG (p19 & p1 -> AX (p0 | !p18))\n\
         AG (p1 & p18 -> AX (p19 | !p0))\n\
         AG (p0 & p19 -> AX (!p1 | {fourth}))\n"
    )
}
