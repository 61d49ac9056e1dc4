//! Wrong values of an object's members.

use crate::random::Random;

pub type Token<'a> = &'a [u8];

/// Values that no member of a request has.
const OTHERS: [Token; 16] = [
    b"null",
    b"true",
    b"0",
    b"-1",
    b"1.0",
    b"\"\"",
    b"\" \"",
    b"{}",
    b"[]",
    b"\"x\"",
    b"'x'",
    b"C",
    b"\"",
    b"",
    b"[{}]",
    b"{\"Debut\":\"00h00\"}",
];

const CODES: [Token; 9] = [
    b"\"17X100A100R0000\"",
    b"\"17X100A100R0000LL\"",
    b"\"17X100A100R0000l\"",
    b"\"17X100A100R0000 \"",
    b"\" 17X100A100R0000L\"",
    b"\"17X100A100R000\\u0030\"",
    b"17X100A100R0000L",
    b"\"17X100A100R0000L",
    b"\"17X100A100R0000\0\"",
];

const CATEGORIES: [Token; 9] = [
    b"\"1312\"",
    b"\"131200\"",
    b"\"13120D\"",
    b"\"13120c\"",
    b"\"13120C \"",
    b"\"13120CC\"",
    b"13120",
    b"\"13120\0\"",
    b"\"1312A\"",
];

/// Date members, with what is good of one and not of the other among them.
const MOMENTS: [Token; 28] = [
    b"\"2021-01-20T00:00:01Z\"",
    b"\"2021-01-20T00:01:00Z\"",
    b"\"2021-01-20T10:00:00Z\"",
    b"\"2021-01-20T23:59:59Z\"",
    b"\"2021-01-20T24:00:00Z\"",
    b"\"2021-01-20T29:00:00Z\"",
    b"\"2021-01-20T23:60:00Z\"",
    b"\"2021-01-20T23:59:60Z\"",
    b"\"2021-02-29T00:00:00Z\"",
    b"\"2021-04-31T00:00:00Z\"",
    b"\"2021-00-10T00:00:00Z\"",
    b"\"2021-13-10T00:00:00Z\"",
    b"\"2021-10-00T00:00:00Z\"",
    b"\"2021-10-32T00:00:00Z\"",
    b"\"1999-12-31T00:00:00Z\"",
    b"\"2100-01-01T00:00:00Z\"",
    b"\"2021-01-20t00:00:00Z\"",
    b"\"2021-01-20T00:00:00z\"",
    b"\"2021-01-20 00:00:00Z\"",
    b"\"2021-01-20T00:00:00\"",
    b"\"2021-01-20T00:00:00+00:00\"",
    b"\"2021-01-20T00:00:00.0Z\"",
    b"\"2021-01-20T00:00Z\"",
    b"\"2021-01-20\"",
    b"\"20210120T000000Z\"",
    b"\"2021-1-20T00:00:00Z\"",
    b"\"20210120\"",
    b"2021-01-20T00:00:00Z",
];

const STATUSES: [Token; 8] = [b"\"c\"", b"\"A\"", b"\"V\"", b"\"CC\"", b"\"C \"", b"\"\\u0043\"", b"'C'", b"\"S\""];

/// Of the form of a label, then of none.
const LABELS: [Token; 22] = [
    b"\"24h00\"",
    b"\"00:30\"",
    b"\"0h30\"",
    b"\"00H30\"",
    b"\"00h30 \"",
    b"\" 00h30\"",
    b"\"00h31\"",
    b"\"02h30_BIS\"",
    b"\"03h00_BIS\"",
    b"\"02h30_bis\"",
    b"\"02h00_BIS\"",
    b"\"\"",
    b"\"\xc3\xa9\xff\x7f {}[]:,\"",
    b"\"00h00h00h00h00h00h00h00h00h00h00h00h00h00h00h00h00h00h00h00h00h00\"",
    b"\"00h\\u0030\"",
    b"\"00h\\\"30\"",
    b"\"00h\x1f30\"",
    b"\"00h\t30\"",
    b"\"00h\n30\"",
    b"\"00h\x0030\"",
    b"00h30",
    b"\"00h30",
];

/// Wrong ones of digits alone, then right ones, then those of no form.
const POWERS: [Token; 24] = [
    b"07",
    b"00",
    b"000",
    b"10000",
    b"99999",
    b"09999",
    b"65536",
    b"4294967296",
    b"4294967297",
    b"18446744073709551617",
    b"00000000000000000000000000000000000000000000000000000001",
    b"9999",
    b"0",
    b"-1",
    b"+1",
    b"-0",
    b"1.0",
    b"1e2",
    b"0x1",
    b"1 2",
    b"\"1\"",
    b"1A",
    b" ",
    b"\xd9\xa1",
];

/// A value that the member of this name hasn't, but for a few that are right on some day or step.
pub fn wrong_value(random: &mut Random, name: &[u8]) -> Vec<u8> {
    let wrong: &[Token] = match name {
        _ if random.one_in(4) => &OTHERS,
        b"\"NomCategorieEngagement\"" => &CATEGORIES,
        b"\"DateExploitation\"" | b"\"DateSoumission\"" => &MOMENTS,
        b"\"Statut\"" => &STATUSES,
        b"\"Debut\"" | b"\"Fin\"" => &LABELS,
        b"\"Puissance\"" => &POWERS,
        b"\"Chronique\"" => &OTHERS,
        _ => &CODES,
    };
    random.pick(wrong).to_vec()
}

/// A wrong label or power that has the form of one, so that it is refused by 6 or 7, unless the label is the step's.
pub fn wrong_of_its_form(random: &mut Random, name: &[u8]) -> Vec<u8> {
    let wrong = if name == b"\"Puissance\"" { &POWERS[..11] } else { &LABELS[..14] };
    random.pick(wrong).to_vec()
}
