//! The reader and the writer, through the wrapper.

use gasplan::{Refusal, read, read_all, write, write_all};

fn refused(number: i64, place: usize) -> Refusal {
    Refusal {
        number,
        step: 0,
        place,
    }
}

#[test]
fn numbers_become_bytes_and_bytes_numbers() {
    assert_eq!(write_all(&[-900, 64]), Ok(vec![0x87, 0x0E, 0x80, 0x01]));
    assert_eq!(read_all(&[0x87, 0x0E, 0x80, 0x01]), Ok(vec![-900, 64]));
    assert_eq!(read_all(&[]), Ok(vec![]));
    assert_eq!(write_all(&[]), Ok(vec![]));
    let ends = [i64::MIN, -1, 0, 1, i64::MAX];
    assert_eq!(read_all(&write_all(&ends).unwrap()), Ok(ends.to_vec()));
}

#[test]
fn refused_reading_stores_what_came_before() {
    let mut list = [7; 3];
    assert_eq!(read(&[2, 0x80], &mut list), Err(refused(1, 2)));
    assert_eq!(list, [1, 7, 7]);
    assert_eq!(read(&[4, 0x80, 0], &mut list), Err(refused(2, 2)));
    assert_eq!(list, [2, 7, 7]);
    assert_eq!(read(&[2, 4, 6, 8], &mut list), Err(refused(3, 3)));
    assert_eq!(list, [1, 2, 3]);
}

#[test]
fn the_place_is_that_of_the_byte() {
    // Where bytes end it is their count, whatever the number's first byte is.
    for more in 1..=9 {
        let bytes = [&[2, 4][..], &[0x80; 9][..more]].concat();
        assert_eq!(read_all(&bytes), Err(refused(1, 2 + more)));
    }
    // A needless last byte has its own index.
    for more in 1..=9 {
        let bytes = [&[2, 4][..], &[0x80; 9][..more], &[0, 6]].concat();
        assert_eq!(read_all(&bytes), Err(refused(2, 2 + more)));
    }
    // A tenth byte other than 01 is nine after the first.
    for tenth in [0x00, 0x02, 0x7F, 0x80, 0xFF] {
        let bytes = [&[2, 4][..], &[0xFF; 9], &[tenth, 6]].concat();
        assert_eq!(read_all(&bytes), Err(refused(2, 11)));
    }
    // A number for which the list is full is not read: its first byte is told, also where it has a wrong one.
    assert_eq!(read(&[2, 0x80, 0], &mut [7]), Err(refused(3, 1)));
    assert_eq!(read(&[0x80], &mut []), Err(refused(3, 0)));
}

#[test]
fn refused_writing_writes_nothing() {
    let mut bytes = [0xAA];
    assert_eq!(write(&[-900], &mut bytes), Err(refused(4, 0)));
    assert_eq!(bytes, [0xAA]);
}
