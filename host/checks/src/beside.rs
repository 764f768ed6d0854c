//! The proved readers beside the second program's. Each call asks both about one input, compares all
//! that is promised of the answer, and counts.

use probes::{Key, Parts, Probed, RequestParts};
use second::cbor::{Class, Defect, PARSE_BOUNDS, PARSE_CBOR, UNKNOWN_FIELD};
use second::token::Fields;
use second::{base64url, caveat, cbor, cidr, request, scope, table, token, values};

use crate::inputs::hex;
use crate::parts::{caveat_numbers, request_numbers, scope_numbers, token_numbers};

const CTX_BAD: u32 = 2;
const PARSE_B64: u32 = 3;
const OUT_SHORT: u32 = 36;

/// What a reader says: its numbers, zero behind the last one, or a defect's number and place.
type Said = Result<[u64; 3], (u32, u64)>;

/// What a test of scopes, caveats or tokens compares at least, how much of that is taken, and how much
/// is refused as parse.cbor, parse.bounds and schema.unknown_field.
pub type Counts = (usize, usize, [usize; 3]);

/// What a test compares at least where an input is taken, found or agrees, or is not: how much, how much
/// of that is, and how much is not.
pub type Outcomes = (usize, usize, usize);

/// How many inputs were compared, how many of them both sides took, and how many scopes, caveats and
/// tokens they refused as parse.cbor, parse.bounds and schema.unknown_field.
#[derive(Default)]
pub struct Beside {
    compared: usize,
    taken: usize,
    defects: [usize; 3],
}

impl Beside {
    /// Both counts reached what a test states of them; else its inputs are not what they were.
    pub fn reached(&self, (compared, taken): (usize, usize)) {
        assert!(self.compared >= compared, "{} inputs compared of {compared}", self.compared);
        assert!(self.taken >= taken, "{} inputs taken of {taken}", self.taken);
    }

    /// As many of the inputs were refused; without one, a reader that takes all would do as well.
    pub fn refused(&self, count: usize) {
        let refused = self.compared - self.taken;
        assert!(refused >= count, "{refused} inputs refused of {count}");
    }

    /// All three.
    pub fn judged(&self, (compared, taken, refused): Outcomes) {
        self.reached((compared, taken));
        self.refused(refused);
    }

    /// The same of scopes, caveats and tokens, and as many were refused by each of the three numbers.
    pub fn met(&self, (compared, taken, defects): Counts) {
        self.reached((compared, taken));
        let met = self.defects.iter().zip(&defects).all(|(refused, count)| refused >= count);
        assert!(met, "{:?} inputs refused of {defects:?}", self.defects);
    }

    pub fn head(&mut self, s: &[u8], at: usize) {
        let proved = said(probes::read_head(s, at), 3);
        let wanted = cbor::head(s, at).map(|head| [head.value, head.next as u64, u64::from(head.major)]);
        self.compare(proved, wanted.map_err(told), || format!("head at {at} of {}", hex(s)));
    }

    pub fn run(&mut self, s: &[u8], at: usize, major: u8, low: u64, high: u64) {
        let proved = said(probes::read_run(s, at, major, low, high), 2);
        let wanted = cbor::run(s, at, major, low, high).map(ends).map_err(told);
        self.compare(proved, wanted, || format!("run at {at}, major {major}, {low} to {high}, of {}", hex(s)));
    }

    pub fn string(&mut self, s: &[u8], at: usize, class: u32, low: u64, high: u64) {
        let proved = said(probes::read_string(s, at, class, low, high), 2);
        let wanted = cbor::string(s, at, class_of(class), low, high).map(ends).map_err(told);
        self.compare(proved, wanted, || format!("string at {at}, class {class}, {low} to {high}, of {}", hex(s)));
    }

    pub fn value(&mut self, s: &[u8], at: usize, depth: u8) {
        let proved = said(probes::read_value(s, at, depth), 1);
        let wanted = values::value(s, at, depth).map(|next| [next as u64, 0, 0]).map_err(told);
        self.compare(proved, wanted, || format!("value at {at}, {depth} deep, of {}", hex(s)));
    }

    pub fn cidr(&mut self, text: &[u8]) {
        let proved = said(probes::read_cidr(text), 3);
        let wanted = cidr::read(text).map(|prefix| [u64::from(prefix.address), u64::from(prefix.size), 0]);
        self.compare(proved, wanted.ok_or((PARSE_CBOR, 0)), || format!("prefix {}", hex(text)));
    }

    pub fn scope(&mut self, s: &[u8], at: usize) {
        let wanted = scope::read(s, at).map(scope_numbers);
        self.parts(probes::read_scope(s, at), wanted, || format!("scope at {at} of {}", hex(s)));
    }

    pub fn caveat(&mut self, s: &[u8]) {
        let wanted = caveat::read(s, 0).map(caveat_numbers);
        self.parts(probes::read_caveat(s), wanted, || format!("caveat {}", hex(s)));
    }

    pub fn token(&mut self, s: &[u8]) {
        let wanted = token::read(s).map(token_numbers);
        self.parts(probes::read_token(s), wanted, || format!("token {}", hex(s)));
    }

    pub fn table(&mut self, table: &[u8]) {
        let good = table::read(table).is_some();
        assert_eq!(probes::table_ok(table), u32::from(good), "table {}", hex(table));
        self.compared += 1;
        self.taken += usize::from(good);
    }

    /// A row that is found counts as taken.
    pub fn lookup(&mut self, table: &[u8], tid: &[u8], kid: &[u8]) {
        let key = table::lookup(table, tid, kid);
        let mut wanted = Key { found: u32::from(key.is_some()), bytes: [0; 32] };
        if let Some(key) = key {
            wanted.bytes.copy_from_slice(key);
        }
        let proved = probes::lookup(table, tid, kid);
        assert_eq!(proved, wanted, "{} and {} in table {}", hex(tid), hex(kid), hex(table));
        self.compared += 1;
        self.taken += usize::from(key.is_some());
    }

    pub fn request(&mut self, s: &[u8]) {
        let wanted = match request::read(s) {
            Some(request) => RequestParts { kind: 0, numbers: request_numbers(&request) },
            None => RequestParts { kind: CTX_BAD, numbers: [0; 20] },
        };
        assert_eq!(probes::read_request(s), wanted, "request {}", hex(s));
        self.compared += 1;
        self.taken += usize::from(wanted.kind == 0);
    }

    /// All ten numbers are promised, behind a defect's place too.
    fn parts(&mut self, proved: Parts, wanted: Result<[u64; 10], Defect>, input: impl Fn() -> String) {
        let wanted = match wanted {
            Ok(numbers) => Parts { kind: 0, numbers },
            Err(defect) => {
                let mut numbers = [0; 10];
                numbers[0] = defect.place as u64;
                Parts { kind: defect.number, numbers }
            }
        };
        assert_eq!(proved, wanted, "{}", input());
        self.compared += 1;
        match wanted.kind {
            PARSE_CBOR => self.defects[0] += 1,
            PARSE_BOUNDS => self.defects[1] += 1,
            UNKNOWN_FIELD => self.defects[2] += 1,
            _ => self.taken += 1,
        }
    }

    /// Writes a token into a room of `length` bytes and looks at all of it. What is written counts as
    /// taken.
    pub fn write(&mut self, fields: &Fields, length: usize) {
        let (mut room, mut wanted) = (pattern(length), pattern(length));
        let proved = probes::write_token(&same_fields(fields), &mut room);
        let (_, written) = answered(&token::write(fields), &mut wanted);
        assert_eq!(proved, written, "{fields:02x?} into {length} bytes");
        assert_eq!(room, wanted, "room of {length} bytes behind {fields:02x?}");
        self.compared += 1;
        self.taken += usize::from(written > 0);
    }

    /// What agrees counts as taken.
    pub fn first_bits(&mut self, x: &[u8], y: &[u8], n: u32) {
        let proved = probes::first_bits_agree(x, y, n);
        let agree = cidr::first_bits_agree(x, y, n);
        let wanted = Probed { kind: 0, first: u64::from(agree), second: 0, third: 0 };
        assert_eq!(proved, wanted, "first {n} bits of {} and {}", hex(x), hex(y));
        self.compared += 1;
        self.taken += usize::from(agree);
    }

    fn compare(&mut self, proved: Said, wanted: Said, input: impl Fn() -> String) {
        assert_eq!(proved, wanted, "{}", input());
        self.compared += 1;
        self.taken += usize::from(wanted.is_ok());
    }

    /// Decodes into a room of `length` bytes and looks at all of it.
    pub fn decode(&mut self, text: &[u8], length: usize) {
        let (mut room, mut wanted) = (pattern(length), pattern(length));
        let proved = answer(probes::decode(text, &mut room));
        let good = match base64url::decode(text) {
            Ok(bytes) => answered(&bytes, &mut wanted),
            // A defect of the text is told before a room that is too short.
            Err(place) => (PARSE_B64, place as u64),
        };
        assert_eq!(proved, good, "text {} into {length} bytes", hex(text));
        assert_eq!(room, wanted, "room of {length} bytes behind the text {}", hex(text));
        self.compared += 1;
        self.taken += usize::from(good.0 == 0);
    }

    /// Encodes into a room of `length` bytes and looks at all of it.
    pub fn encode(&mut self, bytes: &[u8], length: usize) {
        let (mut room, mut wanted) = (pattern(length), pattern(length));
        let proved = answer(probes::encode(bytes, &mut room));
        let good = answered(&base64url::encode(bytes), &mut wanted);
        assert_eq!(proved, good, "bytes {} into {length} characters", hex(bytes));
        assert_eq!(room, wanted, "room of {length} characters behind the bytes {}", hex(bytes));
        self.compared += 1;
        self.taken += usize::from(good.0 == 0);
    }
}

fn same_fields<'a>(fields: &Fields<'a>) -> probes::Fields<'a> {
    let Fields { count, caveats, caveat, scope, tag, kid, tid } = *fields;
    probes::Fields { count, caveats, caveat, scope, tag, kid, tid }
}

/// The numbers that a reader promises; what it promises nothing of is not looked at.
fn said(probed: Probed, numbers: usize) -> Said {
    let mut all = [probed.first, probed.second, probed.third];
    all[numbers..].fill(0);
    if probed.kind == 0 { Ok(all) } else { Err((probed.kind, probed.first)) }
}

fn told(defect: Defect) -> (u32, u64) {
    (defect.number, defect.place as u64)
}

fn ends((from, to): (usize, usize)) -> [u64; 3] {
    [from as u64, to as u64, 0]
}

fn class_of(number: u32) -> Class {
    match number {
        0 => Class::Name,
        1 => Class::Printable,
        2 => Class::Path,
        3 => Class::Upper,
        _ => Class::Hex,
    }
}

/// Kind and number of an answer about a room; a room too short has no number.
fn answer(probed: Probed) -> (u32, u64) {
    if probed.kind == OUT_SHORT { (OUT_SHORT, 0) } else { (probed.kind, probed.first) }
}

/// The answer that goes with a result, which is put into the room if that holds it.
fn answered(result: &[u8], room: &mut [u8]) -> (u32, u64) {
    match room.get_mut(..result.len()) {
        Some(front) => {
            front.copy_from_slice(result);
            (0, result.len() as u64)
        }
        None => (OUT_SHORT, 0),
    }
}

/// What a room holds beforehand: no byte like its neighbours.
pub fn pattern(length: usize) -> Vec<u8> {
    (0..length).map(|i| (i * 151 + 89) as u8).collect()
}
