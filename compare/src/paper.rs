//! Document 01's worked book A and its examples P1 to P11, with the answers that it states.

/// Book A.
pub const A: &str = "02010006000000000000000000000000
03010001000000000000000000000000
03020002000000000000000000000000
070C0001040100070000000000000032
08010001000000110000000000000000
08020001000000120000000000000000
";

pub struct Example {
    pub name: &'static str,
    pub book: String,
    pub request: String,
    /// The C host's number, and the obligations.
    pub answer: u64,
    pub obligations: Vec<u16>,
}

const PERMIT: u64 = 1;
const DENY: u64 = 2;
const NOT_APPLICABLE: u64 = 3;
const INDETERMINATE: u64 = 4;
/// Indeterminate with the status code that document 02, 4 gives it.
const MISSING: u64 = INDETERMINATE + (1 << 40);
const PROCESSING: u64 = INDETERMINATE + (2 << 40);

/// The line of an entry that gives environment attribute 7 an integer.
fn integer(value: i64) -> String {
    format!("0401000700000000{value:016X}\n")
}

/// A set with this choice over these lines.
fn set(choice: u8, lines: &str) -> String {
    let span = lines.lines().count() + 1;
    format!("01{choice:02X}{span:04X}000000000000000000000000\n{lines}")
}

/// P10: a subjects section whose must-be-present attribute is missing, an actions section that no
/// value of the request matches; one Permit rule.
const P10: &str = "02010008000000000000000000000000
04000003010000000000000000000000
05000002000000000000000000000000
06010001018100010000000000000001
04000003030000000000000000000000
05000002000000000000000000000000
06010001030100020000000000000001
03010001000000000000000000000000
";

/// P11: one conjunction of a match that is False and one that is Indeterminate; one Permit rule.
const P11: &str = "02010006000000000000000000000000
04000004010000000000000000000000
05000003000000000000000000000000
06010001010100010000000000000001
06010001018100020000000000000001
03010001000000000000000000000000
";

pub fn examples() -> Vec<Example> {
    let with = |name, book: &str, request: String, decision: u64, obligations: &[u16]| Example {
        name,
        book: book.to_string(),
        request,
        answer: decision + 256 * obligations.len() as u64,
        obligations: obligations.to_vec(),
    };
    let without_rules = "02010001000000000000000000000000\n".to_string();
    vec![
        with("P1", A, String::new(), MISSING, &[]),
        with("P2", A, integer(60), PERMIT, &[17]),
        with("P3", A, integer(40), DENY, &[18]),
        with("P4", A, integer(50), PERMIT, &[17]),
        with("P5", A, integer(-1), DENY, &[18]),
        with("P6", A, integer(40) + &integer(40), PROCESSING, &[]),
        with("P7", &set(1, A), String::new(), DENY, &[]),
        with("P8", &set(2, A), String::new(), MISSING, &[]),
        with("P9", &set(4, &(without_rules + A)), integer(60), PROCESSING, &[]),
        with("P10", P10, String::new(), MISSING, &[]),
        with("P11", P11, String::new(), NOT_APPLICABLE, &[]),
    ]
}
