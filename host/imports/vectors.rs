//! Files with the answers that stand in document 02's sentences, worked out by hand: what both importers are held to.
use crate::generate::{file, file_at};
use crate::importer::Answer;

/// The bytes of a text of hex digits.
fn bytes(text: &str) -> Vec<u8> {
    let digits: String = text.split_whitespace().collect();
    (0..digits.len()).step_by(2).map(|at| u8::from_str_radix(&digits[at..at + 2], 16).expect("hex digits")).collect()
}

/// Data and the records that it becomes, after the version, the start byte and the write of 80 to FF26; and the samples waited.
const LOGS: [(&str, &str, u128); 14] = [
    ("66", "", 0),
    ("66 FF B3", "", 0),
    ("61 00 00 66", "", 0),
    ("B3 00 12 B3 2F AB B3 00 34 66", "0004 01FF1012 0004 01FF3FAB 0004 01FF1034", 0),
    // 23.78 and 47.55 calls up to samples 1 and 2
    ("70 66", "0006 030000000017", 1),
    ("71 66", "0006 03000000002F", 2),
    ("61 02 00 66", "0006 03000000002F", 2),
    ("70 70 66", "0006 030000000017 0006 030000170018", 2),
    ("7F 66", "0006 03000000017C", 16),
    // 17,476.27: 16,384 and 1,092
    ("62 66", "0006 030000004000 0006 030000000444", 735),
    // 20,971.52: 16,384 and 4,587; the next sample is 20,995.3, and 20,971 is 327 times 64 and 43
    ("63 70 66", "0006 030000004000 0006 0300000011EB 0006 0300472B0018", 883),
    // 11,025 samples are 262,144 calls: 16 records and no rest
    (
        "61 11 2B 66",
        "0006030000004000 0006030000004000 0006030000004000 0006030000004000 0006030000004000 0006030000004000 0006030000004000 0006030000004000
         0006030000004000 0006030000004000 0006030000004000 0006030000004000 0006030000004000 0006030000004000 0006030000004000 0006030000004000",
        11025,
    ),
    // 17,476 is 273 times 64 and 4, and 273 is 17 more than 256; 17,500 up to sample 736
    ("B3 16 80 62 B3 04 87 70 61 00 00 66", "0004 01FF2680 0006 030000004000 0006 030000000444 0004 01FF1487 0006 030011040018", 736),
    // waits are not joined, and a wait of 0 parts nothing
    ("70 61 00 00 72 66", "0006 030000000017 0006 030000170048", 4),
];

/// Data with a wrong command, and its place after hex 84.
const WRONG: [(&str, usize); 16] = [
    ("", 0),
    ("70", 1),
    ("B3 00 00", 3),
    ("00 66", 0),
    ("60 66", 0),
    ("64 66", 0),
    ("65 66", 0),
    ("67 66", 0),
    ("6F 66", 0),
    ("80 66", 0),
    ("B3 30 00 66", 0),
    ("B3 80 00 66", 0),
    ("62 B3 00", 1),
    ("62 B3", 1),
    ("70 61 66", 1),
    ("62 63 61 66 66 B4 00 00 66", 5),
];

/// Files about a log of 65,536 bytes: 8, 6 for each write and 8 for each wait. A wrong command behind a log that is too long comes first.
fn about_the_longest() -> Vec<(Vec<u8>, Answer)> {
    let writes = |end: &[u8]| file(&[&[0xB3, 0x03, 0x55].repeat(10920), end].concat());
    let longest = [bytes("0201 0004 01FF2680"), bytes("0004 01FF1355").repeat(10920), bytes("0006 030000000017")].concat();
    let waits = |many: usize, end: &[u8]| file(&[&[0x7F].repeat(many), end].concat());
    vec![
        (writes(&[0x70, 0x66]), Answer::Log { bytes: longest, samples: 1 }),
        (writes(&[0xB3, 0x03, 0x55, 0xB3, 0x03, 0x55, 0x66]), Answer::TooLong),
        (waits(8192, &[0x66]), Answer::TooLong),
        (waits(8192, &[0x67, 0x66]), Answer::CommandWrong { place: 0x84 + 8192 }),
        (waits(8192, &[]), Answer::CommandWrong { place: 0x84 + 8192 }),
        (waits(8191, &[0x67]), Answer::CommandWrong { place: 0x84 + 8191 }),
        (waits(8191, &[0xB3, 0x00, 0x00, 0x66]), Answer::TooLong),
    ]
}

/// Files whose header is wrong, each in one thing.
fn wrong_headers() -> Vec<(Vec<u8>, Answer)> {
    let changed = |at: usize, value: u8| {
        let mut file = file_at(0x161, 0x85, &[0x66]);
        file[at] = value;
        file
    };
    let changes = [(0, 0x76), (3, 0), (8, 0x60), (0x34, 0x4F), (0x34, 0x53), (0x35, 1), (0x80, 1), (0x83, 0x40)];
    let short = [Vec::new(), file(&[])[..0x83].to_vec()];
    changes.into_iter().map(|(at, value)| changed(at, value)).chain(short).map(|file| (file, Answer::HeaderWrong)).collect()
}

/// Every file by hand, with its answer.
pub fn all() -> Vec<(Vec<u8>, Answer)> {
    let log = |(data, records, samples): (&str, &str, u128)| {
        let bytes_of_the_log = bytes(&format!("0201 0004 01FF2680 {records}"));
        (file(&bytes(data)), Answer::Log { bytes: bytes_of_the_log, samples })
    };
    let wrong = |(data, place): (&str, usize)| (file(&bytes(data)), Answer::CommandWrong { place: 0x84 + place });
    let mut all: Vec<(Vec<u8>, Answer)> = LOGS.into_iter().map(log).chain(WRONG.into_iter().map(wrong)).collect();
    // the start at the file's end is taken, and finds no command there; so are later versions
    all.push((file_at(0x161, 0x90, &[]), Answer::CommandWrong { place: 0x90 }));
    all.push((file_at(0x200, 0x84, &[]), Answer::CommandWrong { place: 0x84 }));
    all.extend(about_the_longest());
    all.extend(wrong_headers());
    all
}
