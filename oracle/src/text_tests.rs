//! Lessons as text: the grammar of docs/LESSONS.md read and written, and what
//! the generators of texts and lines give.

use crate::bad_lines::{bad_lines, edge_texts, handwritten, repeat_of};
use crate::expects;
use crate::fields::{field_named, fields, offset_named, registers};
use crate::generate::{generate, KINDS};
use crate::lesson_lines::{lesson_lines, systematic_lines};
use crate::lesson_text::{self, script_of as script};
use crate::malformed::broken_script;
use crate::registers::{btr, esr, fmr, identifier, ier, length_time, mcr, msr, rfr, tsr, Register};
use crate::script::{decode, Step};
use crate::text_reader::{read_line, Line};
use crate::text_writer;

/// The bytes of a good text.
fn bytes(text: &str) -> Vec<u8> {
    script(text.as_bytes()).unwrap_or_else(|place| panic!("{text:?}: {place:?}"))
}

/// The word of a line that writes.
fn word(line: &str) -> u32 {
    match read_line(line.as_bytes()) {
        Ok(Line::Step(Step::Write(_, word))) => word,
        other => panic!("{line}: {other:?}"),
    }
}

fn column(line: &str) -> usize {
    match read_line(line.as_bytes()) {
        Err(fault) => fault.column,
        good => panic!("{line:?}: {good:?}"),
    }
}

#[test]
fn every_step_gives_its_record() {
    let cases: [(&str, &[u8]); 25] = [
        ("reset", &[1, 0, 0]),
        ("read MCR", &[2, 2, 0, 0, 0]),
        ("read F13R2", &[2, 2, 0, 0xAC, 2]),
        ("read 65535", &[2, 2, 0, 0xFF, 0xFF]),
        ("write TI0R 0x12345679", &[3, 6, 0, 0x80, 1, 0x79, 0x56, 0x34, 0x12]),
        ("write 0x2B0 0", &[3, 6, 0, 0xB0, 2, 0, 0, 0, 0]),
        ("idle", &[4, 0, 0]),
        ("bits 0", &[5, 2, 0, 0, 0]),
        ("bits 1000", &[5, 2, 0, 0xE8, 3]),
        ("bits 65535", &[5, 2, 0, 0xFF, 0xFF]),
        ("activity", &[6, 0, 0]),
        ("start", &[7, 0, 0]),
        ("end good", &[8, 1, 0, 0]),
        ("end stuff", &[8, 1, 0, 1]),
        ("end form", &[8, 1, 0, 2]),
        ("end ack", &[8, 1, 0, 3]),
        ("end bit1", &[8, 1, 0, 4]),
        ("end bit0", &[8, 1, 0, 5]),
        ("end crc", &[8, 1, 0, 6]),
        ("end lost", &[8, 1, 0, 7]),
        ("end alone", &[8, 1, 0, 8]),
        ("end 8", &[8, 1, 0, 8]),
        ("end 255", &[8, 1, 0, 255]),
        ("error 255 8", &[10, 2, 0, 255, 8]),
        ("bytes 01 0203 aBcD", &[1, 2, 3, 0xAB, 0xCD]),
    ];
    for (line, record) in cases {
        assert_eq!(bytes(line), record, "{line}");
    }
}

#[test]
fn the_example_of_the_grammar() {
    let text = "# a mailbox is sent\nreset\nwrite MCR INRQ DBF              # fields by name: bits 0 and 16\n\
        expect 0 lines none\nwrite BTR BRP 5 TS1 12 TS2 1    # fields with their numbers\nread MSR\n\
        expect 0x00000C01\n";
    let mut expected = vec![1, 0, 0, 3, 6, 0, 0, 0, 1, 0, 1, 0];
    expected.extend([3, 6, 0, 0x1C, 0, 5, 0, 0x1C, 0, 2, 2, 0, 4, 0]);
    assert_eq!(bytes(text), expected);
    let parts = lesson_text::read(text.as_bytes()).expect("good");
    assert_eq!(expects::check(&parts), Ok(Vec::new()));
}

#[test]
fn blanks_comments_and_line_ends() {
    let idle = [4, 0, 0];
    for text in [
        "idle",
        "idle\n",
        "idle\r\n",
        "\tidle",
        " \r\t idle \t",
        "idle #",
        "idle\t#x",
        "idle # # #",
        "#\nidle",
        "\n\nidle\n\n",
    ] {
        assert_eq!(bytes(text), idle, "{text:?}");
    }
    for text in ["", "\n", "#", "# idle", "#idle", " \t#idle\n", "\r\n", "   "] {
        assert_eq!(bytes(text), [], "{text:?}");
    }
    assert_eq!(bytes("frame 123# #x"), bytes("frame 123#"));
    assert_eq!(bytes("frame\t123#11\r# 22"), bytes("frame 123#11"));
}

#[test]
fn numbers_in_all_spellings() {
    for number in ["4660", "0x1234", "0x00001234", "0004660", "00000000000000000004660", "0x000000000000000001234"] {
        assert_eq!(bytes(&format!("bits {number}")), [5, 2, 0, 0x34, 0x12], "{number}");
    }
    assert_eq!(word("write MCR 4294967295"), u32::MAX);
    assert_eq!(word("write MCR 0xfFfFfFfF"), u32::MAX);
    assert_eq!(word("write MCR 0xaBcDeF"), 0xABCDEF);
}

#[test]
fn registers_by_name_and_offset() {
    assert_eq!(registers().len(), 61);
    for (offset, register) in registers() {
        let name = register.name();
        assert_eq!(offset_named(name.as_bytes()), Some(offset));
        assert_eq!(bytes(&format!("read {name}")), bytes(&format!("read 0x{offset:X}")));
    }
    let some =
        [("TI2R", 0x1A0), ("TDT1R", 0x194), ("TDL0R", 0x188), ("TDH2R", 0x1AC), ("RI1R", 0x1C0), ("RDT0R", 0x1B4)];
    for (name, offset) in some.into_iter().chain([("RF1R", 0x10), ("RDH1R", 0x1CC), ("F0R1", 0x240), ("FA1R", 0x21C)]) {
        assert_eq!(offset_named(name.as_bytes()), Some(offset), "{name}");
    }
}

/// The bits of a field by the register's name and its own.
fn bits(register: &str, field: &str) -> u32 {
    let offset = offset_named(register.as_bytes()).expect(register);
    let register = Register::at(offset).expect("in the map");
    field_named(register, field.as_bytes()).unwrap_or_else(|| panic!("{field}")).mask()
}

#[test]
fn fields_are_where_the_controller_has_them() {
    let mcr =
        [("INRQ", mcr::INRQ), ("SLEEP", mcr::SLEEP), ("TXFP", mcr::TXFP), ("RFLM", mcr::RFLM), ("NART", mcr::NART)];
    let more =
        [("AWUM", mcr::AWUM), ("ABOM", mcr::ABOM), ("TTCM", mcr::TTCM), ("RESET", mcr::RESET), ("DBF", mcr::DBF)];
    let msr =
        [("INAK", msr::INAK), ("SLAK", msr::SLAK), ("ERRI", msr::ERRI), ("WKUI", msr::WKUI), ("SLAKI", msr::SLAKI)];
    mcr.iter().chain(&more).for_each(|&(name, mask)| assert_eq!(bits("MCR", name), mask));
    msr.iter().for_each(|&(name, mask)| assert_eq!(bits("MSR", name), mask));
    assert_eq!([bits("MSR", "TXM"), bits("MSR", "SAMP"), bits("MSR", "RX")], [msr::TXM, msr::SAMP, msr::RX]);
    for x in 0..3 {
        let of = |name: &str| bits("TSR", &format!("{name}{x}"));
        let flags = [tsr::RQCP, tsr::TXOK, tsr::ALST, tsr::TERR, tsr::ABRQ].map(|flag| flag << (8 * x));
        assert_eq!([of("RQCP"), of("TXOK"), of("ALST"), of("TERR"), of("ABRQ")], flags);
        assert_eq!([of("TME"), of("LOW")], [1 << (tsr::TME_PLACE + x), 1 << (tsr::LOW_PLACE + x)]);
        assert_eq!(bits(&format!("TI{x}R"), "TXRQ"), identifier::TXRQ);
    }
    assert_eq!(bits("TSR", "CODE"), 3 << tsr::CODE_PLACE);
    for x in 0..2 {
        let of = |name: &str| bits(&format!("RF{x}R"), &format!("{name}{x}"));
        assert_eq!([of("FMP"), of("FULL"), of("FOVR"), of("RFOM")], [3, rfr::FULL, rfr::FOVR, rfr::RFOM]);
        let enables = ["FMPIE", "FFIE", "FOVIE"].map(|name| bits("IER", &format!("{name}{x}")));
        assert_eq!(ier::of_fifo(enables.iter().sum(), x), 7);
        assert_eq!(bits(&format!("RI{x}R"), "STID"), identifier::TOP);
        assert_eq!(bits(&format!("RI{x}R"), "EXID"), identifier::TOP | identifier::LOW);
        assert_eq!(bits(&format!("RDT{x}R"), "FMI"), 0xFF << length_time::FMI_PLACE);
    }
}

#[test]
fn fields_of_the_other_registers() {
    let enables = [("TMEIE", ier::TMEIE), ("LECIE", ier::LECIE), ("ERRIE", ier::ERRIE), ("WKUIE", ier::WKUIE)];
    enables.iter().for_each(|&(name, mask)| assert_eq!(bits("IER", name), mask));
    assert_eq!(bits("IER", "EWGIE") | bits("IER", "EPVIE") | bits("IER", "BOFIE"), 7 << ier::ERROR_FLAGS_PLACE);
    assert_eq!(fields(Register::Ier).iter().map(|field| field.mask()).sum::<u32>(), ier::WRITABLE);
    assert_eq!(fields(Register::Btr).iter().map(|field| field.mask()).sum::<u32>(), btr::WRITABLE);
    assert_eq!([bits("BTR", "LBKM"), bits("BTR", "SILM"), bits("FMR", "FINIT")], [btr::LBKM, btr::SILM, fmr::FINIT]);
    assert_eq!([bits("ESR", "EWGF"), bits("ESR", "EPVF"), bits("ESR", "BOFF")], [esr::EWGF, esr::EPVF, esr::BOFF]);
    let counters = [7 << esr::LEC_PLACE, 255 << esr::TEC_PLACE, 255 << esr::REC_PLACE];
    assert_eq!([bits("ESR", "LEC"), bits("ESR", "TEC"), bits("ESR", "REC")], counters);
    let transmit = bits("TDT0R", "DLC") | bits("TDT0R", "TGT") | bits("TDT0R", "TIME");
    assert_eq!(transmit, length_time::TRANSMIT_WRITABLE);
    for (name, first) in [("TDL0R", 0), ("TDH0R", 4), ("RDL1R", 0), ("RDH1R", 4)] {
        (0..4).for_each(|byte| assert_eq!(bits(name, &format!("DATA{}", first + byte)), 0xFF << (8 * byte)));
    }
    for (name, field) in [("FM1R", "FBM"), ("FS1R", "FSC"), ("FFA1R", "FFA"), ("FA1R", "FACT")] {
        (0..14).for_each(|bank| assert_eq!(bits(name, &format!("{field}{bank}")), 1 << bank));
    }
    assert!((0..14).all(|bank| fields(Register::Bank(bank, 0)).is_empty()));
}

#[test]
fn values_by_number_and_fields() {
    let cases = [
        ("write MCR INRQ DBF", 0x0001_0001),
        ("write MCR DBF INRQ", 0x0001_0001),
        ("write MCR INRQ 1 SLEEP 0 DBF 0x1", 0x0001_0001),
        ("write MCR INRQ 0", 0),
        ("write MCR 0x00010001 INRQ DBF SLEEP 0", 0x0001_0001),
        ("write MCR 65537 DBF", 0x0001_0001),
        ("write 0x0000 INRQ", 1),
        ("write BTR BRP 5 TS1 12 TS2 1", 0x001C_0005),
        ("write BTR SILM LBKM SJW 3 TS2 7 TS1 15 BRP 1023", 0xC37F_03FF),
        ("write TI0R STID 0x123 TXRQ", 0x2460_0001),
        ("write TI0R EXID 0x10000123 IDE", 0x8000_091C),
        ("write TI0R EXID 0x10000123", 0x8000_0918),
        ("write TI0R 0x20000005 EXID 0x04000000 IDE TXRQ", 0x2000_0005),
        ("write TI0R 0x20000005 STID 0x100 IDE TXRQ", 0x2000_0005),
        ("write TDL0R DATA0 0xAA DATA1 0xBB DATA2 0xCC DATA3 0xDD", 0xDDCC_BBAA),
        ("write TDH0R DATA7 1", 0x0100_0000),
        ("write TDT0R DLC 3 TIME 65535", 0xFFFF_0003),
        ("write FA1R FACT0 FACT13", 0x2001),
        ("write F0R1 0x24600000", 0x2460_0000),
    ];
    for (line, expected) in cases {
        assert_eq!(word(line), expected, "{line}");
    }
}

#[test]
fn frames_as_can_utils_writes_them() {
    let cases: [(&str, u32, u8, u64); 16] = [
        ("123#1122", 0x2460_0000, 2, 0x2211),
        ("12345678#11", 0x91A2_B3C4, 1, 0x11),
        ("123#", 0x2460_0000, 0, 0),
        ("000#00", 0, 1, 0),
        ("7fF#aB", 0xFFE0_0000, 1, 0xAB),
        ("1FFFFFFF#", 0xFFFF_FFFC, 0, 0),
        ("00000000#", 4, 0, 0),
        ("123#R", 0x2460_0002, 0, 0),
        ("123#R0", 0x2460_0002, 0, 0),
        ("123#R5", 0x2460_0002, 5, 0),
        ("12345678#R8", 0x91A2_B3C6, 8, 0),
        ("123#1122334455667788", 0x2460_0000, 8, 0x8877_6655_4433_2211),
        ("123#1122334455667788_B", 0x2460_0000, 11, 0x8877_6655_4433_2211),
        ("123#1122334455667788_f", 0x2460_0000, 15, 0x8877_6655_4433_2211),
        ("123#R8_9", 0x2460_0002, 9, 0),
        ("123#R8_b", 0x2460_0002, 11, 0),
    ];
    for (frame, identifier, length, data) in cases {
        let mut record = vec![9, 13, 0];
        record.extend(identifier.to_le_bytes());
        record.push(length);
        record.extend(data.to_le_bytes());
        assert_eq!(bytes(&format!("frame {frame}")), record, "{frame}");
    }
}

#[test]
fn columns_of_bad_words() {
    let cases = [
        ("Reset", 1),
        ("  bad", 3),
        ("\tbad", 2),
        ("reset#", 1),
        ("reset reset", 7),
        ("read FOO", 6),
        ("read\t\tFOO # x", 7),
        ("read MCR 0", 10),
        ("read 65536", 6),
        ("bits 0x", 6),
        ("bits 65536", 6),
        ("end well", 5),
        ("end Alone", 5),
        ("end alone 8", 11),
        ("end 256", 5),
        ("error 1 256", 9),
        ("error 1 8 1", 11),
        ("repeat 4294967296", 8),
        ("bytes 01 0 00", 10),
        ("bytes 01 00 0G", 13),
        ("expect x", 8),
        ("expect refused 0", 16),
        ("expect refused 256", 16),
        ("expect 1 2", 10),
        ("expect lines TX TX", 17),
        ("expect lines none TX", 19),
        ("expect lines TX none", 17),
        ("expect 5 lines SCE x", 20),
    ];
    for (line, at) in cases {
        assert_eq!(column(line), at, "{line:?}");
    }
}

#[test]
fn what_is_allowed_behind_end() {
    let allowed = "good, lost, stuff, form, ack, bit1, bit0, crc, alone, or a number of 0 to 255";
    for (line, found) in [("end lone", "\"lone\""), ("end", "the end of the line")] {
        let fault = read_line(line.as_bytes()).expect_err("a bad line");
        assert_eq!(fault.message, format!("found {found}; allowed: {allowed}"));
    }
}

#[test]
fn columns_of_missing_words() {
    let cases = [
        ("read", 5),
        ("read ", 6),
        ("read   ", 8),
        ("read\r", 6),
        ("read \t # MCR", 8),
        ("write MCR", 10),
        ("write MCR  # nothing", 12),
        ("error 1", 8),
        ("bytes", 6),
        ("frame # 123#", 7),
        ("frame #11", 7),
        ("repeat", 7),
        ("expect ", 8),
        ("expect refused", 15),
        ("expect lines\t", 14),
        ("expect 5 lines", 15),
        ("write BTR BRP", 14),
        ("write BTR BRP  ", 16),
        ("write BTR BRP # five", 15),
        ("write BTR BRP TS1 12", 15),
        ("write BTR BRP -5", 15),
    ];
    for (line, at) in cases {
        assert_eq!(column(line), at, "{line:?}");
    }
}

#[test]
fn columns_of_fields() {
    let cases = [
        ("write MCR INRQ INRQ", 16),
        ("write MCR INRQ 0 INRQ 0", 18),
        ("write MCR 1 INRQ INRQ", 18),
        ("write MCR INRQ 2", 16),
        ("write MCR INRQ 1 1", 18),
        ("write MCR 1 2", 13),
        ("write MCR 5x", 11),
        ("write MCR FOO", 11),
        ("write MCR BRP 5", 11),
        ("write MCR 0x00010001 SLEEP", 22),
        ("write MCR 0x00010001 DBF INRQ 0", 26),
        ("write BTR BRP 1024", 15),
        ("write BTR BRP 5x", 15),
        ("write BTR 5 BRP 6", 13),
        ("write BTR 5 BRP", 16),
        ("write BTR BRP 5 BRP 9999", 17),
        ("write TI0R STID 0x123 EXID 5", 23),
        ("write TI0R EXID 0 STID 0", 19),
        ("write TI0R STID 0x800", 17),
        ("write F0R1 STID 1", 12),
        ("write F0R1 1 STID 1", 14),
        ("write 0x20 1 INRQ", 14),
    ];
    for (line, at) in cases {
        assert_eq!(column(line), at, "{line:?}");
    }
}

#[test]
fn columns_inside_frames() {
    let cases = [
        ("12#", 1),
        ("1234#", 1),
        ("123456789#", 1),
        ("800#", 1),
        ("20000000#", 1),
        ("800", 1),
        ("123", 4),
        ("123G#", 4),
        ("12G#", 1),
        ("123##0", 5),
        ("123#1", 5),
        ("123#112G", 5),
        ("123#11G", 7),
        ("123#11.22", 7),
        ("123#112233445566778899", 5),
        ("123#112233_9", 11),
        ("123#_9", 5),
        ("123#1122334455667788_", 22),
        ("123#1122334455667788_8", 22),
        ("123#1122334455667788_BB", 23),
        ("123#1122334455667788x", 21),
        ("123#r", 5),
        ("123#R9", 6),
        ("123#R55", 7),
        ("123#R5_9", 7),
        ("123#R_9", 6),
        ("123#R8_", 8),
        ("123#R8_8", 8),
        ("123#R8_BB", 9),
        ("12345678#R8_G", 13),
        ("0x123#11", 1),
    ];
    for (frame, at) in cases {
        assert_eq!(column(&format!("frame {frame}")), 6 + at, "{frame}");
    }
}

#[test]
fn repeats() {
    assert_eq!(bytes("repeat 3\nidle\ndone"), [4, 0, 0].repeat(3));
    assert_eq!(bytes("repeat 0\nidle\ndone\nstart"), [7, 0, 0]);
    assert_eq!(bytes("repeat 2\nrepeat 2\nidle\ndone\nstart\ndone"), [4, 0, 0, 4, 0, 0, 7, 0, 0].repeat(2));
    assert_eq!(bytes("repeat 4294967295\nrepeat 4294967295\n# nothing\ndone\ndone\nidle"), [4, 0, 0]);
    assert_eq!(bytes("repeat 4294967295\nrepeat 0\nidle\ndone\ndone\nidle"), [4, 0, 0]);
    assert_eq!(bytes("repeat 2\nbytes 04\nbytes 00 00\ndone"), [4, 0, 0].repeat(2));
    let deep = |depth: usize| format!("{}idle\n{}", "repeat 2\n".repeat(depth), "done\n".repeat(depth));
    assert_eq!(bytes(&deep(8)).len(), 256 * 3);
    assert_eq!(script(deep(9).as_bytes()), Err((9, 1)));
    assert_eq!(script(b"idle\n\n  done\n"), Err((3, 3)));
    assert_eq!(script(b"repeat 2\nidle\ndone\ndone"), Err((4, 1)));
    assert_eq!(script(b"repeat 2\nidle\n"), Err((3, 1)));
    assert_eq!(script(b"repeat 2\nidle"), Err((3, 1)));
    assert_eq!(script(b"repeat 0\nbad\ndone\n"), Err((2, 1)));
}

#[test]
fn limits_of_lines_and_repeats() {
    let long = |length: usize| format!("reset\n#{}\nidle", "x".repeat(length - 1));
    assert_eq!(bytes(&long(1000)), [1, 0, 0, 4, 0, 0]);
    assert_eq!(script(long(1001).as_bytes()), Err((2, 1001)));
    assert_eq!(script(long(5000).as_bytes()), Err((2, 1001)));
    let lines = |bytes: usize| repeat_of(bytes).iter().filter(|&&byte| byte == b'\n').count() as u64;
    assert_eq!(script(&repeat_of(60_000)).map(|script| script.len()), Ok(6 + 2 * 3 * (60_000 / 17)));
    assert_eq!(script(&repeat_of(60_001)), Err((lines(60_001) - 2, 1)));
    let twice = [repeat_of(40_000), repeat_of(40_000)].concat();
    assert!(script(&twice).is_ok());
}

#[test]
fn records_as_text() {
    let cases: [(&[u8], &str); 25] = [
        (&[1, 0, 0], "reset"),
        (&[2, 2, 0, 0, 0], "read MCR"),
        (&[2, 2, 0, 2, 0], "read 0x0002"),
        (&[3, 6, 0, 0, 0, 1, 0, 1, 0], "write MCR INRQ DBF"),
        (&[3, 6, 0, 0, 0, 0, 1, 0, 0], "write MCR 0x00000100"),
        (&[3, 6, 0, 0, 0, 0, 0, 0, 0], "write MCR 0x00000000"),
        (&[3, 6, 0, 0x1C, 0, 5, 0, 0x1C, 0x41], "write BTR BRP 5 TS1 12 TS2 1 SJW 1 LBKM"),
        (&[3, 6, 0, 0x80, 1, 1, 0, 0x60, 0x24], "write TI0R STID 0x123 TXRQ"),
        (&[3, 6, 0, 0x80, 1, 0x1F, 9, 0, 0x80], "write TI0R EXID 0x10000123 IDE RTR TXRQ"),
        (&[3, 6, 0, 0x80, 1, 5, 0, 0, 0], "write TI0R IDE TXRQ"),
        (&[3, 6, 0, 0x80, 1, 9, 0, 0x60, 0x24], "write TI0R 0x24600009"),
        (&[3, 6, 0, 0xB0, 1, 1, 0, 0x60, 0x24], "write RI0R 0x24600001"),
        (&[3, 6, 0, 0x88, 1, 0xC1, 0, 0, 1], "write TDL0R DATA0 0xC1 DATA3 0x01"),
        (&[3, 6, 0, 0x40, 2, 1, 0, 0, 0], "write F0R1 0x00000001"),
        (&[3, 6, 0, 0xB0, 2, 1, 0, 0, 0], "write 0x02B0 0x00000001"),
        (&[5, 2, 0, 0xE8, 3], "bits 1000"),
        (&[8, 1, 0, 7], "end lost"),
        (&[8, 1, 0, 3], "end ack"),
        (&[8, 1, 0, 8], "end alone"),
        (&[8, 1, 0, 9], "end 9"),
        (&[8, 1, 0, 255], "end 255"),
        (&[10, 2, 0, 1, 8], "error 1 8"),
        (&[9, 13, 0, 0, 0, 0x60, 0x24, 2, 0x11, 0xAA, 0, 0, 0, 0, 0, 0], "frame 123#11AA"),
        (&[9, 13, 0, 0x1E, 9, 0, 0x80, 13, 0, 0, 0, 0, 0, 0, 0, 0], "frame 10000123#R8_D"),
        (&[9, 13, 0, 0, 0, 0, 0, 9, 1, 2, 3, 4, 5, 6, 7, 8], "frame 000#0102030405060708_9"),
    ];
    for (record, line) in cases {
        assert_eq!(text_writer::write(record), [line]);
        assert_eq!(bytes(line), record);
    }
}

#[test]
fn frames_that_no_word_gives_back() {
    let frames: [[u8; 13]; 6] = [
        [1, 0, 0x60, 0x24, 1, 1, 0, 0, 0, 0, 0, 0, 0],
        [8, 0, 0x60, 0x24, 1, 1, 0, 0, 0, 0, 0, 0, 0],
        [0, 0, 0x60, 0x24, 16, 1, 0, 0, 0, 0, 0, 0, 0],
        [0, 0, 0x60, 0x24, 1, 1, 1, 0, 0, 0, 0, 0, 0],
        [0, 0, 0x60, 0x24, 0, 0, 0, 0, 0, 0, 0, 0, 1],
        [2, 0, 0x60, 0x24, 8, 1, 0, 0, 0, 0, 0, 0, 0],
    ];
    for frame in frames {
        let record = [&[9, 13, 0][..], &frame].concat();
        let lines = text_writer::write(&record);
        assert!(
            lines.len() == 1 && lines[0].starts_with("bytes 09 0D 00 ") && lines[0].contains(" # frame standard 0x123")
        );
        assert_eq!(bytes(&lines[0]), record);
    }
}

#[test]
fn broken_scripts_as_text() {
    let rest: Vec<u8> = (0x0B..0x0B + 33).collect();
    let lines = text_writer::write(&[&[4, 0, 0][..], &rest].concat());
    assert_eq!(lines.len(), 4);
    assert_eq!(lines[..2], ["idle", "bytes 0B 0C 0D 0E 0F 10 11 12 13 14 15 16 17 18 19 1A"]);
    assert_eq!(lines[3], "bytes 2B");
    assert_eq!(text_writer::write(&[4, 0]), ["bytes 04 00"]);
    assert_eq!(text_writer::write(&[]), [""; 0]);
}

#[test]
fn text_gives_the_same_bytes_again() {
    let again = |script: &[u8]| bytes(&text_writer::write(script).join("\n")) == script;
    for (name, kind) in KINDS {
        assert!(again(&generate(6, 2000, kind)), "{name}");
    }
    for index in 0..600 {
        assert!(again(&broken_script(3, index)), "{index}");
    }
}

#[test]
fn lessons_by_seed_are_of_the_grammar() {
    assert_eq!(lesson_lines(1, 2000), lesson_lines(1, 2000));
    assert_ne!(lesson_lines(1, 2000), lesson_lines(2, 2000));
    for seed in 0..40 {
        let text = lesson_lines(seed, 2000);
        let script = script(&text).unwrap_or_else(|place| panic!("seed {seed}: {place:?}"));
        assert!(script.len() > 5000 && text.len() > 20_000);
    }
}

#[test]
fn systematic_lines_say_everything() {
    let lines = systematic_lines();
    let says = |words: &[&str]| lines.iter().any(|line| line.iter().map(String::as_str).eq(words.iter().copied()));
    for (offset, register) in registers() {
        let name = register.name();
        assert!(says(&["read", &name]) && says(&["read", &offset.to_string()]));
        for field in fields(register) {
            assert!(says(&["write", &name, &field.name, &field.limit().to_string()]));
            assert!(!field.is_flag() || says(&["write", &name, &field.name]));
        }
    }
    for verb in
        ["reset", "idle", "bits", "activity", "start", "end", "frame", "error", "bytes", "expect", "repeat", "done"]
    {
        assert!(lines.iter().any(|line| line[0] == verb));
    }
}

#[test]
fn bad_lines_are_bad() {
    for line in handwritten() {
        assert!(script(&line).is_err(), "{}", line.escape_ascii());
    }
    assert_eq!(bad_lines(1, 1000), bad_lines(1, 1000));
    assert_ne!(bad_lines(1, 1000), bad_lines(2, 1000));
    let lines = bad_lines(5, 3000);
    let lines: Vec<&[u8]> = lines.split_inclusive(|&byte| byte == b'\n').collect();
    assert_eq!(lines.len(), 3000);
    assert!(lines.iter().all(|line| matches!(script(line), Err((1, _)))));
}

#[test]
fn edge_texts_are_good_and_bad() {
    let bad = edge_texts().iter().filter(|text| script(text).is_err()).count();
    assert_eq!((edge_texts().len(), bad), (63, 32));
}

/// The lines of the expectations that are not met.
fn unmet(text: &str) -> Vec<u64> {
    let parts = lesson_text::read(text.as_bytes()).expect(text);
    let unmet = expects::check(&parts).expect(text);
    unmet.iter().map(|unmet| unmet.line).collect()
}

#[test]
fn expectations() {
    assert_eq!(unmet("reset\nexpect 0\nexpect lines none\nread MCR\nexpect 0x10002 lines none\n"), []);
    assert_eq!(
        unmet("reset\nexpect 1\nexpect lines TX\nread MCR\nexpect refused 1\nexpect 0x10002 lines SCE"),
        [2, 3, 5, 6]
    );
    assert_eq!(
        unmet("reset\nread 2\nexpect refused 1\nexpect refused 1 lines none\nexpect 0\nexpect refused 2"),
        [5, 6]
    );
    assert_eq!(unmet("reset\nwrite IER WKUIE\nactivity\nexpect lines SCE\nexpect 0 lines SCE TX"), [5]);
    assert_eq!(unmet("reset\nrepeat 3\nread MSR\nexpect 0xC02\nexpect 0\ndone\nexpect 0xC02"), [5, 5, 5]);
    assert_eq!(unmet("reset\nrepeat 0\nexpect 7\ndone\nexpect 0"), []);
    assert_eq!(unmet("expect 0\nreset"), [1]);
}

#[test]
fn expectations_of_bytes() {
    assert_eq!(unmet("reset\nbytes 02 02\nexpect 0xC02\nbytes 00 04 00\nexpect 0xC02"), []);
    assert_eq!(unmet("reset\nbytes 02 02\nexpect 5\nbytes 00 04 00"), [3]);
    assert_eq!(unmet("reset\nbytes 02 02\nexpect 0xC02\nexpect lines none\nbytes 00 04 00"), [4]);
    assert_eq!(unmet("reset\nbytes 0B 00 00\nexpect refused 7\nread MSR\nexpect 0xC02"), [5]);
    assert_eq!(unmet("reset\nbytes 02 02\nexpect refused 6"), []);
    assert_eq!(unmet("reset\nbytes 02 03 00\nexpect refused 8 lines none"), []);
    for text in ["", "idle", "bytes 01 00", "read MCR\nreset", "repeat 0\nreset\ndone\nidle"] {
        let parts = lesson_text::read(text.as_bytes()).expect(text);
        assert!(expects::check(&parts).is_err(), "{text:?}");
    }
    assert_eq!(unmet("bytes 01\nbytes 0000\nexpect 0"), []);
}

#[test]
fn records_of_any_kind() {
    let script = generate(1, 20_000, crate::generate::Kind::Any);
    let (mut place, mut tags, mut worded, mut frames) = (0, [0; 11], 0, 0);
    while place < script.len() {
        let (step, length) = decode(&script[place..]).expect("readable");
        tags[script[place] as usize] += 1;
        if let Step::Frame(frame) = step {
            frames += 1;
            worded += crate::can_frame::write(frame).is_some() as u32;
        }
        place += length;
    }
    assert!(tags[1..].iter().all(|&count| count > 1000), "{tags:?}");
    assert!(worded > frames / 5 && worded < frames / 2, "{worded} of {frames}");
}
