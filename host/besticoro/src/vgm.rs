//! VGM files as logs.
use crate::{entries, refusal, Refusal, LONGEST_LOG};
use std::fmt;

/// A VGM file as a log of version 2 for a DMG unit: the file's writes in their order, its waits as clock calls, 262144/11025 a sample.
///
/// The file may be of any length, but a log has at most 65,536 bytes: at 60 ticks a second some 14 seconds of music with ten writes a tick, 68 with none.
///
/// ```
/// // the header: mark, version 1.61, the data hex 50 bytes after hex 34, the Game Boy's clock
/// let mut vgm = vec![0; 0x84];
/// vgm[..4].copy_from_slice(b"Vgm ");
/// vgm[8..10].copy_from_slice(&[0x61, 1]);
/// vgm[0x34] = 0x50;
/// vgm[0x80..].copy_from_slice(&4_194_304u32.to_le_bytes());
/// // FF26 = 80, a wait of 735 samples (a sixtieth of a second), the end
/// vgm.extend([0xB3, 0x16, 0x80, 0x62, 0x66]);
///
/// let log = besticoro::import_vgm(&vgm)?;
/// let rendering = besticoro::render_to_vec(&log)?;
/// assert_eq!((rendering.frames_made(), rendering.clock_calls()), (734, 17_476));
///
/// // without the end
/// let wrong = besticoro::import_vgm(&vgm[..136]).unwrap_err();
/// assert_eq!(wrong.to_string(), "byte 136: the file ends without its end command, 66");
/// # Ok::<(), besticoro::Refusal>(())
/// ```
pub fn import_vgm(vgm: &[u8]) -> Result<Vec<u8>, Refusal> {
    let mut log = vec![0; LONGEST_LOG];
    let written = import_vgm_into(vgm, &mut log)?.len();
    log.truncate(written);
    Ok(log)
}

/// The same, to the front of `log`: the part written. Bytes of `log` past it, or with a refusal all of them, stay as they were.
pub fn import_vgm_into<'a>(vgm: &[u8], log: &'a mut [u8]) -> Result<&'a [u8], Refusal> {
    let written = refusal::judge_import(entries::import_vgm(vgm, log), vgm)?;
    Ok(&log[..written])
}

/// What is wrong with a VGM file's header, in the order in which it is tried.
#[derive(Clone, Copy, Debug, PartialEq, Eq)]
pub enum BadHeader {
    /// The mark of gzip: a .vgz.
    Compressed,
    /// Shorter than hex 84 bytes.
    TooShort,
    /// Not "Vgm ".
    Mark,
    /// Below 1.61.
    Version,
    /// Data that begin before hex 84 or past the file's end.
    Data,
    /// Not 4,194,304.
    Clock,
}

/// What is wrong with a VGM file's command. Its place is that of its first byte.
#[derive(Clone, Copy, Debug, PartialEq, Eq)]
pub enum CommandFault {
    /// None of those that are taken.
    Kind,
    /// B3 with a register above 2F.
    Register,
    /// The file ends within it.
    Cut,
    /// The file ends where a command should be. Place: the file's length.
    NoEnd,
}

impl fmt::Display for BadHeader {
    fn fmt(&self, f: &mut fmt::Formatter) -> fmt::Result {
        f.write_str(match self {
            BadHeader::Compressed => "byte 0: the file is compressed, a .vgz: unpack it first, as gzip -dc does",
            BadHeader::TooShort => "the file is shorter than the 132 bytes of a VGM's header",
            BadHeader::Mark => "byte 0: the file does not begin with the mark of a VGM, \"Vgm \"",
            BadHeader::Version => "byte 8: the VGM's version is below 1.61",
            BadHeader::Data => "byte 52: the VGM's data begin before byte 132 or past the file's end",
            BadHeader::Clock => "byte 128: the Game Boy's clock is not 4,194,304 (it is 0 in a VGM of other machines)",
        })
    }
}

impl fmt::Display for CommandFault {
    fn fmt(&self, f: &mut fmt::Formatter) -> fmt::Result {
        f.write_str(match self {
            CommandFault::Kind => "the command is none of those that are taken, B3, 61, 62, 63, 66 and 70 to 7F",
            CommandFault::Register => "the command writes a register above 2F, and FF3F is the last",
            CommandFault::Cut => "the file ends within the command",
            CommandFault::NoEnd => "the file ends without its end command, 66",
        })
    }
}

/// What is wrong with a file's header.
pub(crate) fn bad_header(vgm: &[u8]) -> Option<BadHeader> {
    if vgm.starts_with(&[0x1F, 0x8B]) {
        return Some(BadHeader::Compressed);
    }
    if vgm.len() < 0x84 {
        return Some(BadHeader::TooShort);
    }
    let word = |at: usize| u32::from_le_bytes([vgm[at], vgm[at + 1], vgm[at + 2], vgm[at + 3]]);
    // the data offset is counted from its own place
    let data = 0x34 + u64::from(word(0x34));
    match () {
        _ if !vgm.starts_with(b"Vgm ") => Some(BadHeader::Mark),
        _ if word(8) < 0x161 => Some(BadHeader::Version),
        _ if !(0x84..=vgm.len() as u64).contains(&data) => Some(BadHeader::Data),
        _ if word(0x80) != 4_194_304 => Some(BadHeader::Clock),
        _ => None,
    }
}

/// What is wrong with the command at a place.
pub(crate) fn command_fault(vgm: &[u8], place: usize) -> Option<CommandFault> {
    match *vgm.get(place..)? {
        [] => Some(CommandFault::NoEnd),
        [0xB3, 0x30..=0xFF, ..] => Some(CommandFault::Register),
        [0xB3 | 0x61] | [0xB3 | 0x61, _] => Some(CommandFault::Cut),
        [0xB3 | 0x61..=0x63 | 0x66 | 0x70..=0x7F, ..] => None,
        _ => Some(CommandFault::Kind),
    }
}

#[cfg(test)]
mod tests {
    use super::{import_vgm, import_vgm_into, BadHeader, CommandFault};
    use crate::{refusal, render_to_vec, Refusal, LONGEST_LOG};

    /// A file with a right header and these bytes from hex 84 on.
    fn file(data: &[u8]) -> Vec<u8> {
        let mut vgm = vec![0; 0x84];
        vgm[..4].copy_from_slice(b"Vgm ");
        (vgm[8], vgm[9], vgm[0x34], vgm[0x82]) = (0x61, 1, 0x50, 0x40);
        vgm.extend(data);
        vgm
    }

    // power on, a wait of 735 samples, a write to FF14, waits of one sample and of none, the end
    const COMMANDS: [u8; 12] = [0xB3, 0x16, 0x80, 0x62, 0xB3, 0x04, 0x87, 0x70, 0x61, 0, 0, 0x66];
    #[rustfmt::skip]
    const LOG: [u8; 44] = [
        2, 1, 0, 4, 1, 0xFF, 0x26, 0x80, 0, 4, 1, 0xFF, 0x26, 0x80, 0, 6, 3, 0, 0, 0, 0x40, 0, 0, 6, 3, 0, 0, 0, 0x04, 0x44,
        0, 4, 1, 0xFF, 0x14, 0x87, 0, 6, 3, 0, 0x11, 0x04, 0, 0x18,
    ];

    #[test]
    fn a_file_and_its_log() {
        let log = import_vgm(&file(&COMMANDS)).expect("a right file");
        assert_eq!(log, LOG);
        let rendering = render_to_vec(&log).expect("a right log");
        assert_eq!((rendering.frames_made(), rendering.clock_calls(), rendering.records()), (735, 17_500, 6));
        assert_eq!(import_vgm(&[file(&COMMANDS), vec![0x4F]].concat()), Ok(log), "what follows the end is passed over");
    }

    #[test]
    fn each_wait() {
        let calls = |data: &[u8]| import_vgm(&file(data)).and_then(|log| render_to_vec(&log)).expect("a right file").clock_calls();
        assert_eq!((calls(&[0x62, 0x66]), calls(&[0x63, 0x66]), calls(&[0x61, 1, 2, 0x66])), (17_476, 20_971, 12_197));
        assert_eq!((calls(&[0x70, 0x66]), calls(&[0x7F, 0x66]), calls(&[0x61, 0, 0, 0x66])), (23, 380, 0));
    }

    #[test]
    fn room_and_order() {
        let (vgm, mut log) = (file(&COMMANDS), [9; 45]);
        assert_eq!(import_vgm_into(&vgm, &mut log[..43]), Err(Refusal::NoRoom { needed: 44 }));
        assert_eq!(import_vgm_into(&vgm[..143], &mut log), Err(Refusal::WrongCommand { place: 143, fault: CommandFault::NoEnd }));
        assert_eq!(import_vgm_into(&vgm[..131], &mut []), Err(Refusal::BadHeader(BadHeader::TooShort)));
        assert_eq!(log, [9; 45], "a refusal writes nothing");
        assert_eq!(import_vgm_into(&vgm, &mut log), Ok(&LOG[..]));
        assert_eq!(log[44], 9, "past the log it stays");
    }

    #[test]
    fn the_longest_log() {
        // 85 waits of 65,535 samples are 96 records each, and 31 of one sample one each
        let waits = |short: usize| [[0x61, 0xFF, 0xFF].repeat(85), vec![0x70; short]].concat();
        let longest = import_vgm(&file(&[waits(31), vec![0x66]].concat())).expect("a log of 65,536 bytes");
        assert_eq!(longest.len(), LONGEST_LOG);
        let refused = import_vgm(&file(&[waits(32), vec![0x66]].concat())).expect_err("a record more");
        assert_eq!(refused, Refusal::VgmTooLong);
        assert_eq!(refused.to_string(), "the log would be longer than 65,536 bytes: at 60 ticks a second one log has room for some 14 to 68 seconds of music");
        assert_eq!(import_vgm(&file(&waits(32))), Err(Refusal::WrongCommand { place: 419, fault: CommandFault::NoEnd }), "10 comes before 11");
    }

    #[test]
    fn each_fault_of_a_header() {
        let fault = |at: usize, bytes: &[u8]| {
            let mut vgm = file(&COMMANDS);
            vgm[at..at + bytes.len()].copy_from_slice(bytes);
            import_vgm(&vgm).err().map(|refusal| refusal.to_string())
        };
        let said = |what: BadHeader| Some(what.to_string());
        assert_eq!(fault(0, &[0x1F, 0x8B]), Some("byte 0: the file is compressed, a .vgz: unpack it first, as gzip -dc does".to_string()));
        assert_eq!(fault(3, b"_"), Some("byte 0: the file does not begin with the mark of a VGM, \"Vgm \"".to_string()));
        assert_eq!(fault(8, &[0x60]), Some("byte 8: the VGM's version is below 1.61".to_string()));
        assert_eq!(fault(8, &[0x00, 2]), None);
        assert_eq!(fault(0x34, &[0x4F]), Some("byte 52: the VGM's data begin before byte 132 or past the file's end".to_string()));
        assert_eq!((fault(0x34, &[0x5D]), fault(0x37, &[0xFF])), (said(BadHeader::Data), said(BadHeader::Data)));
        assert_eq!(fault(0x80, &[1]), Some("byte 128: the Game Boy's clock is not 4,194,304 (it is 0 in a VGM of other machines)".to_string()));
        assert_eq!((fault(0x82, &[0]), fault(0x83, &[0x40])), (said(BadHeader::Clock), said(BadHeader::Clock)));
        let mut no_commands = file(&[]);
        no_commands[0] = b'v';
        assert_eq!(import_vgm(&no_commands), Err(Refusal::BadHeader(BadHeader::Mark)));
        assert_eq!(import_vgm(&[0x1F, 0x8B]), Err(Refusal::BadHeader(BadHeader::Compressed)));
        assert_eq!(import_vgm(&[]).unwrap_err().to_string(), "the file is shorter than the 132 bytes of a VGM's header");
    }

    #[test]
    fn each_fault_of_a_command() {
        let fault = |data: &[u8]| import_vgm(&file(data)).unwrap_err().to_string();
        assert_eq!(fault(&[]), "byte 132: the file ends without its end command, 66");
        assert_eq!(fault(&[0x62, 0x70]), "byte 134: the file ends without its end command, 66");
        assert_eq!(fault(&[0x7F, 0x4F, 0x66]), "byte 133: the command is none of those that are taken, B3, 61, 62, 63, 66 and 70 to 7F");
        assert_eq!(fault(&[0xB3, 0x2F, 0, 0xB3, 0x30, 0]), "byte 135: the command writes a register above 2F, and FF3F is the last");
        for cut in [&[0x63, 0xB3][..], &[0x63, 0xB3, 0x2F], &[0x63, 0x61], &[0x63, 0x61, 0]] {
            assert_eq!(fault(cut), "byte 133: the file ends within the command");
        }
        let none = Err(Refusal::WrongCommand { place: 132, fault: CommandFault::Kind });
        let kinds: Vec<u8> = (0..=255).filter(|&byte| import_vgm(&file(&[byte, 0x2F, 0x66, 0x66])) != none).collect();
        assert_eq!(kinds, [&[0x61, 0x62, 0x63, 0x66][..], &Vec::from_iter(0x70..=0x7F), &[0xB3]].concat());
    }

    #[test]
    fn numbers_of_another_library() {
        let good = file(&COMMANDS);
        for (refusal, number) in [(1, 0), (3, 0), (4, 0), (5, 2), (7, 0), (8, 164), (9, 0), (10, 132), (10, 143), (10, 145), (12, 0)] {
            assert_eq!(refusal::judge_import(refusal << 48 | number, &good), Err(Refusal::Unknown { refusal, number }));
        }
        assert_eq!(refusal::judge_import(0xFFFF << 48, &good), Err(Refusal::BadMemory));
        assert_eq!(refusal::judge_import(44, &good), Ok(44));
    }
}
