//! Word 1, condition by condition, and what isn't broken though it is damaged.

use reference::broken;
use reference::gen::build::{Code, Draft};
use reference::gen::cases::whole;
use reference::gen::numbers::renumber;
use reference::gen::rng::Rng;
use reference::store::{Store, INT, LIMITS};

fn check(expected: bool, what: &str, change: impl FnOnce(&mut Store)) {
    let mut store = whole();
    assert_eq!(store.counts[2..12], [7, 1, 1, 3, 2, 1, 1, 2, 1, 0]);
    assert!(!broken(&store), "the store is whole");
    change(&mut store);
    assert_eq!(broken(&store), expected, "{what}");
}

#[test]
fn lengths() {
    check(true, "counts short", |s| s.counts.truncate(s.counts.len() - 1));
    check(true, "classes long", |s| s.classes.push(0));
    check(true, "kept empty", |s| s.kept.clear());
    check(true, "cache short", |s| s.cache.truncate(s.cache.len() - 1));
    check(true, "ties long", |s| s.ties.push(0));
    check(true, "subtypes short", |s| s.subtypes.truncate(s.subtypes.len() - 1));
    check(true, "objects long", |s| s.objects.push(0));
    check(true, "frames empty", |s| s.frames.clear());
}

#[test]
fn counts() {
    for (which, limit) in LIMITS.into_iter().enumerate() {
        check(true, "past the limit", |s| s.counts[which] = limit + 1);
        check(true, "far past the limit", |s| s.counts[which] = u16::MAX);
    }
    // Zeros are fine rows of these tables, and bytes that no file uses are fine.
    check(false, "ties at the limit", |s| {
        s.counts[3] = 256;
        renumber(&mut Rng::new(3), s);
    });
    check(false, "subtypes at the limit", |s| {
        s.counts[4] = 256;
        renumber(&mut Rng::new(4), s);
    });
    check(true, "ties at the limit, without numbers", |s| s.counts[3] = 256);
    check(true, "subtypes at the limit, without numbers", |s| s.counts[4] = 256);
    check(false, "kept at the limit", |s| s.counts[1] = 16_384);
    check(false, "cache at the limit", |s| s.counts[2] = 256);
    check(false, "free objects", |s| s.counts[5] = 256);
    check(false, "objects of Object", |s| {
        s.counts[5] = 256;
        s.owners_mut()[3..].fill(1);
    });
    for (reports, is_broken) in [(191, false), (192, false), (193, true), (253, true)] {
        check(is_broken, "so many of the report's objects, one of which was there", |s| {
            s.counts[5] = 256;
            s.owners_mut()[3..].fill(1);
            s.owners_mut()[3..2 + reports].fill(2);
        });
    }
    check(false, "free rows, and owners past the count, that say the report's", |s| s.counts[11..264].fill(2));
    check(false, "frames of Object", |s| s.counts[7] = 32);
    check(true, "classes at the limit, without files", |s| s.counts[0] = 64);
    check(true, "no classes, but objects", |s| s.counts[0] = 0);
}

#[test]
fn classes_and_files() {
    for cell in 0..3 {
        check(true, "another class 0", |s| s.classes[cell] = 1);
    }
    check(true, "loader 16", |s| s.classes[3] = 16);
    check(true, "a loader without the superclass", |s| s.classes[9] = 3);
    check(true, "size one more", |s| s.classes[5] += 1);
    check(true, "size one less", |s| s.classes[5] -= 1);
    check(true, "start one on", |s| s.classes[4] += 1);
    check(true, "start past all", |s| s.classes[4] = u16::MAX);
    check(true, "fewer kept bytes than files", |s| s.counts[1] -= 1);
    check(true, "version 2", |s| s.kept[0] = 2);
    check(false, "another name of its own", |s| s.kept[4] = 77);
    check(true, "a superclass that isn't cached", |s| s.kept[6] = 77);
    check(true, "its own superclass", |s| s.kept[6] = 10);
    check(false, "bytes behind the kept ones", |s| s.kept[16_383] = 9);
    check(false, "code that no verifier takes", |s| {
        let at = s.kept.iter().position(|&byte| byte == 0xBB).expect("new");
        s.kept[at] = 0xFF;
    });
    check(false, "two classes with one file", |s| s.classes.copy_within(4..6, 10));
}

/// The store with one more class, of version 2, which begins at this byte of the kept ones.
fn with_maps(s: &mut Store) -> usize {
    let start = s.count(1);
    let code = Code::new().iload(1).ifeq(1).end(INT).point(1, &[40], &[]).null().map(&[], &[40]).pop().end(INT);
    let class = s.add_class(1, &Draft::mapped(40).main(20, &code).file());
    s.add_cached([1, 40, class]);
    start
}

/// The same of version 3, with a method of two arguments.
fn with_lists(s: &mut Store) -> usize {
    let start = s.count(1);
    let class = s.add_class(1, &Draft::listed(40).method_of(20, &[INT, 40], INT, &Code::listed().end(INT)).file());
    s.add_cached([1, 40, class]);
    start
}

#[test]
fn files_of_version_3() {
    check(false, "a list", |s| { with_lists(s); });
    // The count of arguments stands at 11, behind the method's name.
    let changed = |at: usize, byte: u8| move |s: &mut Store| {
        let start = with_lists(s);
        s.kept[start + at] = byte;
    };
    check(true, "version 2", changed(0, 2));
    check(true, "version 4", changed(0, 4));
    check(true, "an argument more", changed(11, 3));
    check(true, "an argument less", changed(11, 1));
    check(true, "five arguments", changed(11, 5));
    check(true, "an argument of type 0", changed(13, 0));
    check(false, "another argument", changed(13, 7));
    check(true, "a result of type 0", changed(17, 0));
}

#[test]
fn files_of_version_2() {
    check(false, "maps", |s| { with_maps(s); });
    // The count of maps stands at 32: 17 bytes before the code, 15 of code.
    let changed = |at: usize, byte: u8| move |s: &mut Store| {
        let start = with_maps(s);
        s.kept[start + at] = byte;
    };
    check(true, "version 3", changed(0, 3));
    check(true, "version 1, with bytes left", changed(0, 1));
    check(true, "a map less", changed(32, 1));
    check(true, "a map more", changed(32, 3));
    check(false, "another offset", changed(34, 0));
    check(true, "an offset that isn't below the next", changed(34, 10));
    check(true, "an operand more", changed(51, 1));
    check(true, "an operand of type 0", changed(72, 0));
    check(false, "a local of type 0", changed(36, 0));
    check(false, "a map that the verifier doesn't take", changed(36, 1));
    check(false, "a jump out of the code", changed(21, 200));
}

#[test]
fn superclasses_are_lower() {
    let row = |s: &Store, loader: u16, name: u16| {
        3 * s.cache_rows().position(|row| row[0] == loader && row[1] == name).expect("cached")
    };
    check(true, "as high as the class", |s| {
        let at = row(s, 1, 10);
        s.cache[at + 2] = 2;
    });
    check(true, "higher", |s| {
        let at = row(s, 1, 10);
        s.cache[at + 2] = 3;
    });
    check(false, "of two rows the lower is read", |s| s.add_cached([1, 10, 3]));
    check(true, "and a lower row counts", |s| {
        s.add_cached([1, 10, 1]);
        let at = row(s, 1, 10);
        s.cache[at + 2] = 2;
    });
}

#[test]
fn too_many_fields() {
    let fields = |draft: Draft, first: u16, count: u16| (0..count).fold(draft, |draft, i| draft.field(first + i, INT));
    for (count, expected) in [(8, false), (1, true)] {
        let mut store = whole();
        let mut add = |loader: u16, draft: Draft| {
            let class = store.add_class(loader, &draft.file());
            store.add_cached([loader, draft.name, class]);
        };
        add(1, fields(Draft::new(40), 100, 8));
        add(1, fields(Draft::new(41).under(40), 200, 8));
        if expected {
            add(1, fields(Draft::new(42).under(41), 300, count));
        }
        assert_eq!(broken(&store), expected);
    }
}

#[test]
fn rows() {
    check(true, "cache loader", |s| s.cache[3] = 16);
    check(true, "cache class", |s| s.cache[5] = 4);
    check(false, "cache name", |s| s.cache[19] = 0);
    check(true, "tie's first loader", |s| s.ties[0] = 16);
    check(true, "tie's second loader", |s| s.ties[1] = 16);
    check(false, "tie's name", |s| s.ties[2] = 0);
    check(true, "subtype's loader", |s| s.subtypes[0] = 16);
    check(false, "subtype's names", |s| s.subtypes[1..3].fill(0));
    check(false, "rows behind the used ones", |s| {
        s.cache[30..].fill(u16::MAX);
        s.ties[3..].fill(u16::MAX);
        s.subtypes[3..].fill(u16::MAX);
        s.classes[12..].fill(u16::MAX);
        s.objects[99..].fill(u32::MAX);
        s.counts[11..264].fill(u16::MAX);
        s.counts[264 + 1..520].fill(u16::MAX);
        s.counts[520 + 1..776].fill(u16::MAX);
        s.counts[777..937].fill(u16::MAX);
        s.counts[937 + 1..].fill(u16::MAX);
        s.frames[2 * 52..32 * 52].fill(u32::MAX);
        s.frames[33 * 52..].fill(u32::MAX);
    });
}

#[test]
fn owners() {
    for owner in [3, 4, 256, 257, u16::MAX] {
        check(true, "no owner", |s| s.counts[8] = owner);
        check(true, "no owner of the last object", |s| s.counts[10] = owner);
        check(false, "past the objects", |s| s.counts[11] = owner);
        check(false, "the last row's", |s| s.counts[263] = owner);
    }
    check(false, "the other task's", |s| s.counts[8..11].copy_from_slice(&[2, 1, 2]));
    check(true, "the quote's object is free", |s| s.counts[8] = 0);
    check(true, "the report's object is free", |s| s.counts[9] = 0);
    check(true, "the top frame's object is free", |s| s.counts[10] = 0);
}

/// The store with a free row 3 below the count and cells that no object has.
fn with_free_row(s: &mut Store) {
    s.counts[5] = 5;
    s.counts[8 + 4] = 1;
    s.objects[4 * 33..5 * 33].fill(0);
    s.objects[3 * 33..4 * 33].fill(u32::MAX);
}

#[test]
fn free_rows() {
    check(false, "a free row's class and fields", with_free_row);
    let named = |change: fn(&mut Store)| {
        move |s: &mut Store| {
            with_free_row(s);
            change(s);
        }
    };
    check(true, "a free row in a field", named(|s| s.objects[3..5].copy_from_slice(&[3, 3])));
    check(false, "the object behind it in a field", named(|s| s.objects[3..5].copy_from_slice(&[3, 4])));
    check(false, "a free row past the fields", named(|s| s.objects[5..7].copy_from_slice(&[3, 3])));
    check(true, "a free row in an unset local", named(|s| s.frames[18..20].copy_from_slice(&[3, 3])));
    check(false, "the object behind it in an unset local", named(|s| s.frames[18..20].copy_from_slice(&[3, 4])));
    check(false, "a free row past the operands", named(|s| s.frames[20..22].copy_from_slice(&[3, 3])));
    check(true, "a free row in an operand of a frame that waits", named(|s| {
        s.frames[3] = 1;
        s.frames[20..22].copy_from_slice(&[3, 3]);
    }));
}

#[test]
fn objects_and_frames() {
    check(true, "object's class", |s| s.objects[0] = 4);
    check(true, "object's class by far", |s| s.objects[33] = 0x1_0000);
    check(true, "an empty field", |s| s.objects[1] = 0);
    check(true, "null with bits", |s| s.objects[4] = 1);
    check(true, "kind 4", |s| s.objects[3] = 4);
    check(true, "an object that isn't there", |s| s.objects[3..5].copy_from_slice(&[3, 3]));
    check(false, "an object that is", |s| s.objects[3..5].copy_from_slice(&[3, 2]));
    check(false, "a cell past the fields", |s| s.objects[5] = 9);
    check(true, "frame's class", |s| s.frames[0] = 4);
    check(true, "frame's class by far", |s| s.frames[32 * 52] = 0x1_0001);
    check(false, "method and point", |s| s.frames[1..3].fill(u32::MAX));
    check(true, "17 operands", |s| s.frames[3] = 17);
    check(true, "an empty operand", |s| s.frames[52 + 3] = 3);
    check(true, "kind 5 in a local", |s| s.frames[8] = 5);
    check(true, "empty with bits", |s| s.frames[9] = 1);
    check(true, "an object that isn't there in a local", |s| s.frames[5] = 3);
    check(false, "a cell past the operands", |s| s.frames[50] = 9);
}
