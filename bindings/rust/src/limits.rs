//! The header's numbers, under the header's names without `SECPAL_`.

pub const VERSION: usize = 1;
pub const POLICY_VERSIONS: usize = 2;
pub const CONSTANTS: usize = 255;
pub const VERBS: usize = 64;
pub const ASSERTIONS: usize = 256;
pub const LABEL: usize = 32;
pub const ARITY: usize = 3;
pub const NEST: usize = 3;
pub const BODY: usize = 4;
pub const CONSTRAINTS: usize = 4;
pub const WITHDRAWALS: usize = 256;
pub const HIERARCHY: usize = 1024;
pub const VARIABLES: usize = 8;
pub const PARTS: usize = 8;
pub const DEPTH: usize = 8;
pub const LAST_DAY: usize = 36524;
pub const RECORD: usize = 16;
pub const RECORDS: usize = 65535;
pub const ANSWER: usize = 8;
pub const UNBOUND: usize = 255;

pub const REFUSED: u32 = 0;
pub const ALLOW: u32 = 1;
pub const DENY: u32 = 2;

pub const BAD_VERSION: u32 = 1;
pub const BAD_LENGTH: u32 = 2;
pub const BAD_FORM: u32 = 3;
pub const ALIKE: u32 = 4;
pub const NO_FIT: u32 = 5;
pub const UNSAFE_ASSERTION: u32 = 6;
pub const UNSAFE_REQUEST: u32 = 7;
pub const TOO_MANY_FACTS: u32 = 8;
pub const TOO_MANY_ANSWERS: u32 = 9;
pub const OPEN_WITHDRAWAL: u32 = 10;
pub const OWN_CHILD: u32 = 11;

pub const SIDE_NONE: u32 = 0;
pub const SIDE_POLICY: u32 = 1;
pub const SIDE_REQUEST: u32 = 2;
pub const SIDE_WITHDRAWALS: u32 = 3;
pub const SIDE_HIERARCHY: u32 = 4;

pub const PRINCIPAL: u8 = 1;
pub const THING: u8 = 2;
pub const DAY: u8 = 3;
pub const QUANTITY: u8 = 4;

pub const RECORD_ROUND: usize = 0;
pub const RECORD_ISSUER: usize = 2;
pub const RECORD_DEPTH: usize = 3;
pub const RECORD_NEST: usize = 4;
pub const RECORD_SPEAKERS: usize = 5;
pub const RECORD_SUBJECT: usize = 11;
pub const RECORD_VERB: usize = 12;
pub const RECORD_PARAMETERS: usize = 13;

pub const REQUEST_TODAY: usize = 5;
pub const REQUEST_NODE: usize = 9;

pub const NOT_FOUND: u32 = u32::MAX;
