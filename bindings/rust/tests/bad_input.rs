//! What a careless or hostile caller can pass.

use luzhanem::{Refusal::*, ScriptCall, State, Store, Transactions};

#[test]
fn numbers_of_any_value() {
    let mut s = Store::new();
    for n in [8, 16, 1440, 4097, usize::MAX] {
        assert_eq!(s.begin(n), Err(NoSuchTransaction));
        assert_eq!(s.commit(n, 0), Err(NoSuchTransaction));
        assert_eq!(s.state(n), Err(NoSuchTransaction));
    }
    s.begin(0).unwrap();
    assert_eq!(s.begin(0), Err(AlreadyOpen));
    for n in [16, usize::MAX] {
        assert_eq!(s.seek(0, n, 0), Err(NoSuchTarget));
        assert_eq!(s.offset(n), Err(NoSuchTarget));
        assert_eq!(s.file(n), Err(NoSuchTarget));
    }
    for n in [4097, usize::MAX] {
        assert_eq!(s.seek(0, 0, n), Err(SeekPastEnd));
    }
    for n in [1440, usize::MAX] {
        assert_eq!(s.commit(0, n), Err(NoSuchMinute));
        assert_eq!(s.set_window(0, n, 0), Err(NoSuchMinute));
    }
    assert_eq!(s.write(0, 0, &[0; 4097]), Err(WritePastEnd));
    assert_eq!(s.write(0, 0, &vec![0; 1 << 20]), Err(WritePastEnd));
    assert_eq!(s.state(0), Ok(State::Open));
    assert_eq!(s.undo(), Err(StillOpen));
}

#[test]
fn a_read_into_any_buffer() {
    let mut s = Store::new();
    s.begin(0).unwrap();
    s.write(0, 0, &[7; 4096]).unwrap();
    s.seek(0, 0, 0).unwrap();
    let mut big = vec![9; 10_000];
    assert_eq!(s.read(0, 0, &mut big).unwrap(), [7; 4096]);
    assert_eq!(big[4096..], [9; 5904]);
    assert!(s.read(0, 0, &mut []).unwrap().is_empty());
}

#[test]
fn scripts_out_of_range() {
    let mut s = Store::new();
    let call = ScriptCall::GetFilePointer { descriptor: 0 };
    let seventeen = [call; 17];
    let past = [ScriptCall::Write { descriptor: 0, start: usize::MAX, count: 1 }];
    assert_eq!(s.dispatch(&[&seventeen[..]], b"", &mut [], 0), Err(ScriptRange));
    assert_eq!(s.dispatch(&[&[][..]; 9], b"", &mut [], 0), Err(ScriptRange));
    assert_eq!(s.dispatch(&[&past[..]], b"abc", &mut [], 0), Err(ScriptRange));
    let d = s.dispatch(&[&[ScriptCall::Read { descriptor: 0, count: 1 }]], b"", &mut [], 0).unwrap();
    assert_eq!(d.ended, [Some(ReaderTooShort)]);
    assert_eq!(s.best_order(&[], 0, 1), Err(BadList));
    assert_eq!(s.best_order(&[0; 9], 0, 1), Err(BadList));
    assert_eq!(s.best_order(&[0, 0], 0, 1), Err(BadList));
    assert_eq!(s.best_order(&[200], 0, 1), Err(NoSuchTransaction));
}

#[test]
fn any_bytes_are_a_store() {
    assert_eq!(Store::from_block(&[0; 3]).err(), Some(BufferLength));
    let mut x = 88172645463325252u64;
    let mut bytes = Store::new().block().to_vec();
    for _ in 0..200 {
        for b in bytes.iter_mut() {
            x ^= x << 13;
            x ^= x >> 7;
            x ^= x << 17;
            *b = x as u8;
        }
        let mut s = Store::from_block(&bytes).unwrap();
        assert_eq!((s.begin(0), s.check(), s.save().err()), (Err(RecordRange), Err(RecordRange), Some(RecordRange)));
        assert_eq!(s.block(), bytes);
        let _ = (s.file(0), s.state(0), s.offset(0));
    }
    let mut s = Store::new();
    s.begin(2).unwrap();
    let mut again = Store::from_block(s.block()).unwrap();
    assert_eq!((again.begin(3), again.begin(2)), (Ok(()), Err(AlreadyOpen)));
}

#[test]
fn threads_with_a_mutex() {
    let s = std::sync::Mutex::new(Store::new());
    std::thread::scope(|scope| {
        for t in 0..8 {
            let s = &s;
            scope.spawn(move || {
                for _ in 0..50 {
                    s.lock().unwrap().begin(t).unwrap();
                    s.lock().unwrap().write(t, 0, b"0123456789").unwrap();
                    s.lock().unwrap().commit(t, 0).unwrap();
                }
            });
        }
    });
    assert_eq!(s.lock().unwrap().file(0).unwrap().len(), 4000);
}

#[test]
fn images_are_saved_and_loaded() {
    let mut s = Store::with_files(std::array::from_fn(|d| 7 - d as u8 % 8)).unwrap();
    s.begin(0).unwrap();
    s.write(0, 0, b"hello").unwrap();
    s.commit(0, 0).unwrap();
    s.begin(1).unwrap();
    s.write(1, 0, b" again").unwrap();
    let image = s.save().unwrap();
    let mut again = Store::load(&image).unwrap();
    assert_eq!((again.state(1), again.file(7), again.offset(0)), (Ok(State::Closed), Ok(&b"hello"[..]), Ok(5)));
    assert_eq!(again.save().unwrap(), image);
    assert_eq!(s.state(1), Ok(State::Open));
    again.undo().unwrap();
    assert_eq!(again.file(7), Ok(&b""[..]));
    assert_eq!(Store::load(&image[1..]).err(), Some(BufferLength));
    let mut other = image.clone();
    other[0] = 2;
    assert_eq!(Store::load(&other).err(), Some(BufferLength));
    other = image.clone();
    other[2] = 8;
    assert_eq!(Store::load(&other).err(), Some(RecordRange));
    assert_eq!(Store::with_files([8; 16]).err(), Some(NoSuchFile));
}

#[test]
fn a_clone_has_what_is_open() {
    let mut s = Store::new();
    s.begin(0).unwrap();
    let mut copy = s.clone();
    assert_eq!((copy.commit(0, 0).is_ok(), s.state(0)), (true, Ok(State::Open)));
    assert!(Transactions(0b101).iter().eq([0, 2]) && !Transactions(4).contains(258));
}
