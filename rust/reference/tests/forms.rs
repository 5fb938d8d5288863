//! The two forms of the file, and wider boxes (document 02, E7).

use reference::generate::{any_table, file, fit, labels, mix_up, widest};
use reference::rng::Rng;
use reference::*;

const SEED: u64 = 0x5345_4154_0007;

fn refused<T>(number: u32, cell: u32) -> Result<T, Refusal> {
    Err(Refusal { number, cell })
}

fn step(width: u16) -> Cell {
    Cell { parent: ROOT, kind: 1, width, depth: 1, ..Cell::default() }
}

fn answer(file: &[u8]) -> Result<(u32, u32), Refusal> {
    read(file, &mut [Cell::default(); MAX_CELLS])
}

/// Document 01's printed example in the wide form, byte by byte, with the root four times as wide.
#[test]
fn printed_wide() {
    let wide = b"UpARun\xFF\xFF\x02\x01\xFF\x03\x02\0\0\0\0\0\x01\x01\x03\0\x01\0\x02\0\0\0\x01\x01\x05\0\x03\0\x03\0\x06\0\x03\0\0\0\x53\x55";
    let text = "sheet 3 0 1027 4\n0 0 0 1023 1 Up\n1 -4 2 3 1 A\n2 0 2 5 1 Run\n";
    assert_eq!(String::from_utf8(listing(wide)).unwrap(), text);
    let mut table = [Cell::default(); MAX_CELLS];
    assert_eq!(read(wide, &mut table), Ok((3, 0)));
    assert_eq!(table[0], Cell { parent: ROOT, kind: 2, rank: 0, width: 1_023, depth: 1, label_len: 2, label_start: 0 });
    assert_eq!(table[2], Cell { parent: 0, kind: 1, rank: 0, width: 5, depth: 1, label_len: 3, label_start: 3 });
    assert_eq!((0..3).map(|c| label(wide, c)).collect::<Vec<_>>(), [&b"Up"[..], b"A", b"Run"]);
}

/// A file of either form reads as the same table, where every width fits and no rank is given.
#[test]
fn both_forms_read_alike() {
    for number in 0..2_000 {
        let mut rng = Rng::new(SEED, number);
        let n = rng.between(1, 40) as usize;
        let mut cells = any_table(&mut rng, n);
        fit(Form::Old, &mut cells);
        let text = labels(&mut rng, &mut cells);
        let allowance = rng.next() as u16;
        let [old, wide] = FORMS.map(|form| file(form, &text, &cells, allowance));
        let mut tables = [[Cell::default(); MAX_CELLS]; 2];
        let expected = Ok((cells.len() as u32, allowance as u32));
        assert_eq!(read(&old, &mut tables[0]), expected);
        assert_eq!(read(&wide, &mut tables[1]), expected);
        assert_eq!(tables[0], tables[1]);
        assert_eq!(tables[0][..cells.len()], cells);
        assert_eq!(listing(&old), listing(&wide));
    }
}

/// One trailer cannot pass question 4 in both forms: with the other mark alone, every file gets 4.
#[test]
fn the_mark_decides() {
    for number in 0..2_000 {
        let mut rng = Rng::new(SEED, number);
        let n = rng.between(1, 40) as usize;
        let mut cells = any_table(&mut rng, n);
        let form = rng.pick(&FORMS);
        fit(form, &mut cells);
        let text = labels(&mut rng, &mut cells);
        let good = file(form, &text, &cells, 0);
        assert!(answer(&good).is_ok());
        let mut other = good.clone();
        *other.last_mut().unwrap() ^= 1;
        assert_eq!(answer(&other), refused(4, 0));
        let mut mixed = good;
        mix_up(&mut rng, form, text.len(), cells.len(), &mut mixed);
        assert_ne!(Form::of(&mixed), Some(form));
        let _ = answer(&mixed);
    }
}

#[test]
fn marks() {
    let good = file(Form::Wide, b"", &[step(5)], 0);
    for (low, high, ok) in [(0x53, 0x54, false), (0x53, 0x55, true), (0x53, 0x56, false), (0x52, 0x55, false), (0x55, 0x53, false)] {
        let mut f = good.clone();
        f[16..].copy_from_slice(&[low, high]);
        let number = if [low, high] == [0x53, 0x54] { 4 } else { 3 };
        assert_eq!(answer(&f), if ok { Ok((1, 0)) } else { refused(number, 0) });
    }
}

/// A wide file of one cell has 18 bytes; question 2 still begins at 16.
#[test]
fn shortest() {
    for (bytes, expected) in [(15, refused(2, 0)), (16, refused(4, 0)), (17, refused(4, 0)), (18, Ok((1, 0)))] {
        let f = file(Form::Wide, b"", &[step(5)], 0);
        assert_eq!(answer(&f[18 - bytes..]), expected);
    }
    assert_eq!(answer(&file(Form::Old, b"", &[step(5)], 0)), Ok((1, 0)));
}

#[test]
fn widths() {
    for (width, ok) in [(0, false), (1, true), (255, true), (256, true), (1_023, true), (1_024, false), (65_535, false)] {
        let t = [step(width)];
        let laid = layout(&t, 0, &mut [0; 2], &mut vec![0; SCRATCH]);
        assert_eq!(laid, if ok { Ok(Measure { width: width as u32, rows: 2 }) } else { refused(8, 0) });
        // No label: question 10 asks for 2 more than none.
        let wide = if width == 1 { refused(10, 0) } else if ok { Ok((1, 0)) } else { refused(8, 0) };
        assert_eq!(answer(&file(Form::Wide, b"", &t, 0)), wide);
    }
    let t = [Cell { kind: 2, ..step(5) }, Cell { parent: 0, ..step(1_024) }];
    assert_eq!(answer(&file(Form::Wide, b"", &t, 0)), refused(8, 1));
}

/// Byte 7 is the rank, whatever it is; in the old form it belongs to the label's start.
#[test]
fn byte_7() {
    for rank in 0..=255 {
        let mut table = [Cell::default(); MAX_CELLS];
        let mut f = file(Form::Wide, b"", &[step(5)], 0);
        f[7] = rank;
        assert_eq!(read(&f, &mut table), Ok((1, 0)));
        assert_eq!(table[0], Cell { rank, ..step(5) });
    }
    let mut f = file(Form::Old, b"", &[step(5)], 0);
    f[7] = 1;
    assert_eq!(answer(&f), refused(9, 0));
}

#[test]
fn coordinates() {
    let t = [Cell { kind: 2, ..step(5) }, Cell { parent: 0, ..step(5) }];
    for (x, ok) in [(262_143, true), (-262_143, true), (262_144, false), (-262_144, false), (65_536, true), (i32::MIN, false), (i32::MAX, false)] {
        for place in 0..4 {
            let mut p = [0, 0, 0, 2];
            p[place] = x;
            let cell = place as u32 / 2;
            assert_eq!(check(&t, &p, 0).map(|_| ()), if ok { Ok(()) } else { refused(15, cell) });
            assert_eq!(ends(&t, &p, 1).map(|_| ()), if ok { Ok(()) } else { refused(15, cell) });
        }
    }
    let t = [Cell { kind: 2, ..step(1_023) }, Cell { parent: 0, ..step(1_021) }];
    assert_eq!(ends(&t, &[262_143, 262_143, -262_143, -262_143], 1), Ok(Ends { from: (262_655, 262_144), to: (-261_633, -262_143) }));
}

/// A run of 16 steps and so on: 240 boxes of 1,024 columns side by side are the most that 256 cells give.
#[test]
fn near_the_bound() {
    let (mut least, mut most) = (0, 0);
    for number in 0..12 {
        let t = widest(&mut Rng::new(SEED, number));
        let mut p = [0; 512];
        let m = layout(&t, 0, &mut p, &mut vec![0; SCRATCH]).unwrap();
        assert!((240_000..=245_759).contains(&m.width), "{}", m.width);
        assert_eq!(check(&t, &p, 0), Ok(Verdict::Kept(m)));
        least = p.iter().copied().min().unwrap().min(least);
        most = p.iter().copied().max().unwrap().max(most);
    }
    assert!(least < -240_000 && most > 240_000, "{least} {most}");
}
