//! Pages and their lines: read as they were made, and refused where they are not pages.

use olipranj::*;

fn store() -> Store {
    let mut store = Store::fresh(1).expect("plan 1");
    for (analyte, value) in [(3, 0), (1, 210), (31, u32::MAX)] {
        store.enter(Line::new(1, analyte).expect("a line"), value).expect("room");
    }
    store.withdraw(Line::new(1, 2).expect("a line")).expect("room");
    store
}

/// The lines of a page, or the first fault.
fn read(bytes: &[u8]) -> Result<Vec<PageLine>, PageFault> {
    PageLines::read(bytes)?.collect()
}

#[test]
fn a_page_is_read_line_by_line() {
    let page = store().page(1).expect("a page");
    let lines = page.lines().expect("a page");
    assert_eq!((lines.sample(), lines.left()), (1, 3));
    let lines: Vec<(String, u32, u32)> =
        lines.map(|line| line.expect("a line")).map(|l| (l.line.to_string(), l.value, l.stamp.0)).collect();
    let expected = [("1/1", 210, 2), ("1/3", 0, 1), ("1/31", u32::MAX, 3)];
    assert_eq!(lines, expected.map(|(line, value, stamp)| (line.to_string(), value, stamp)));
    assert_eq!(read(store().page(9).expect("a page").bytes()), Ok(vec![]));
}

#[test]
fn each_cut_is_a_fault() {
    let page = store().page(1).expect("a page").into_bytes();
    for end in 0..page.len() {
        assert!(matches!(read(&page[..end]), Err(PageFault::Cut(_))), "{end}");
    }
    assert!(read(&page).is_ok());
}

#[test]
fn each_fault_has_its_offset() {
    for (bytes, fault) in [
        (&[0x80, 0x00][..], PageFault::Number(0)),
        (&[0xFF, 0xFF, 0xFF, 0xFF, 0x10], PageFault::Number(0)),
        (&[0x80, 0x80, 0x80, 0x80, 0x80], PageFault::Number(0)),
        (&[0xFF, 0xFF, 0xFF, 0xFF], PageFault::Cut(0)),
        (&[0x80, 0x80, 0x80, 0x40], PageFault::Sample(0)),
        (&[1, 33], PageFault::Count(1)),
        (&[1, 0, 0], PageFault::Trail(2)),
        (&[1, 1, 32, 0, 1], PageFault::Analyte(2)),
        (&[1, 2, 1, 0, 1, 1, 0, 2], PageFault::Analyte(5)),
        (&[1, 1, 1, 0, 0], PageFault::Stamp(4)),
        (&[1, 1, 1, 0, 0xFF, 0xFF, 0xFF, 0xFF, 0x0F], PageFault::Stamp(4)),
        (&[1, 1, 1, 0, 1, 7], PageFault::Trail(5)),
    ] {
        assert_eq!(read(bytes), Err(fault), "{bytes:02X?}");
    }
    assert_eq!(PageFault::Trail(5).to_string(), "offset 5: bytes are left after the page");
}

#[test]
fn after_a_fault_there_is_no_line() {
    let mut lines = PageLines::read(&[1, 3, 1, 0, 1, 0, 0, 2, 5, 5, 3]).expect("a head");
    assert!(matches!(lines.next(), Some(Ok(_))));
    assert_eq!(lines.next(), Some(Err(PageFault::Analyte(5))));
    assert_eq!(lines.next(), None);
}

#[test]
fn any_byte_in_any_place_is_read_or_refused() {
    let page = store().page(1).expect("a page").into_bytes();
    for at in 0..page.len() {
        for byte in 0..=u8::MAX {
            let mut other = page.clone();
            other[at] = byte;
            let _ = read(&other);
        }
    }
}

#[test]
fn the_longest_page_and_image_fit() {
    let mut raw = model::Store::empty(1);
    raw.clock = u32::MAX;
    let mut stamp = u32::MAX;
    for (node, &capacity) in capacities(1).iter().enumerate() {
        raw.counts[node] = capacity;
        for at in 0..capacity {
            let place = node * NODE_PLACES + at as usize;
            stamp -= 1;
            raw.keys[place] = u32::MAX - 1000 * node as u32 - (capacity - 1 - at);
            (raw.kinds[place], raw.values[place], raw.stamps[place]) = (1, u32::MAX, stamp);
        }
    }
    let mut image = vec![0; 3000];
    let length = model::save(&raw, &mut image);
    assert!(length.is_done());
    image.truncate(length.a as usize);
    assert_eq!(image.len(), LONGEST_IMAGE);
    let store = Store::load(&image).expect("a good store");
    assert_eq!(store.save_to_vec(), Ok(image));
    let lines = store.page(LAST_SAMPLE).expect("a page");
    assert!(lines.bytes().len() <= LONGEST_PAGE);
}
