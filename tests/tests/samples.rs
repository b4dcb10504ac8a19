//! The sample inputs of the program: what they are, and that their maker makes them.

use std::{fs, path::Path, process::Command};
use tests::{
    c,
    calls::{PACK_VECTORS, REGIONS, WRITE},
    input::Input,
    matches::{loaded, sample, with_marks, Match, SAMPLES},
    reference,
    samples::{self, file, library_a},
};

#[test]
fn no_sample_is_other_than_it_is_made() {
    let folder = Path::new(env!("CARGO_TARGET_TMPDIR")).join("samples");
    fs::create_dir_all(&folder).expect("there is room for samples");
    c::output(Command::new(c::root().join("samples/make")).arg(&folder));
    for name in SAMPLES {
        assert!(fs::read(folder.join(name)).expect("the sample is made") == sample(name), "{name}");
    }
}

/// Document 01, "Cases": "A written out (391 bytes), 02 00, then 05 00 00 40 3D 05 00 00 C0 3C, prints `2 3`,
/// `3 104 1`, `4 105 61`."
#[test]
fn case_library_a_with_its_query() {
    let rest = [0x02, 0x00, 0x05, 0x00, 0x00, 0x40, 0x3D, 0x05, 0x00, 0x00, 0xC0, 0x3C];
    assert_eq!(sample("a.match"), [&file(&library_a([0, 0], 1)), &rest[..]].concat());
    assert_eq!(reference::program(&sample("a.match")), "2 3\n3 104 1\n4 105 61\n");
}

/// Forty tractors, of eight readings each, that are not alike, in a file already written, with their former marks; a
/// query for three.
#[test]
fn forty_tractors_of_eight_readings() {
    let bytes = sample("forty.match");
    let library = loaded(&bytes);
    assert_eq!((library.d, library.b, library.n), (8, 24, 40));
    assert_eq!(library.marks, reference::former_marks(8, 24, &library.components));
    let mut vectors: Vec<&[i32]> = library.components.chunks(8).collect();
    let mut settings = library.settings.clone();
    vectors.sort();
    vectors.dedup();
    settings.dedup();
    assert_eq!((vectors.len(), settings.len()), (40, 40), "vectors and settings, equal ones once");
    assert_eq!(Match::of(&bytes).k, 3);
    assert_eq!(reference::program(&bytes), "3 7\n28 1503 1417\n24 1404 139251\n25 1500 142611\n");
}

/// Document 02, Slip 1: the same tractor with three of its eight readings gone, one lost and two over age. The nearest is
/// the same, over the five readings that are there; before the request the match was refused with 13.
#[test]
fn forty_tractors_with_three_readings_gone() {
    let (forty, trees) = (Match::of(&sample("forty.match")), Match::of(&sample("trees.match")));
    assert_eq!((&trees.library, trees.k), (&forty.library, forty.k));
    let whole = reference::query_present(8, &forty.query, 8).expect("no reading is refused");
    let less = reference::query_present(8, &trees.query, 8).expect("no reading is refused");
    assert_eq!((whole.word, less.word), (0b1111_1111, 0b0011_0111));
    for (dimension, (component, whole)) in less.components.iter().zip(&whole.components).enumerate() {
        let present = less.word >> dimension & 1 == 1;
        assert_eq!(component, if present { whole } else { &0 }, "dimension {}", dimension + 1);
    }
    assert_eq!(reference::query(8, &trees.query, 8), Err(13), "by the first intake");
    assert_eq!(reference::program(&trees.bytes()), "3 7\n28 1503 1361\n21 1401 31947\n22 1402 61189\n");
}

/// Document 02, Slip 2: the forty and behind them a large one, with the marks that are made from all of them. Five of
/// the large one's readings lie outside the forty's former marks, in which it is refused with 8. A query for three,
/// with a held reading, finds it.
#[test]
fn forty_tractors_and_a_large_one() {
    let (forty, bytes) = (loaded(&sample("forty.match")), sample("large.match"));
    let library = loaded(&bytes);
    let large = &library.components[320..];
    assert_eq!((library.d, library.b, library.n), (8, 24, 41));
    assert_eq!((&library.components[..320], &library.settings[..40]), (&forty.components[..], &forty.settings[..]));
    assert_eq!((large.len(), library.settings[40]), (8, 1800));
    assert_eq!(library.marks, reference::made_marks(8, 24, &library.components));

    let regions =
        reference::parts(8, 24).into_iter().zip(large).map(|(part, &v)| reference::region_of(&forty.marks[part], v));
    assert_eq!(regions.filter(Option::is_none).count(), 5, "readings outside the forty's marks");
    let taken = samples::input(8, 24, &library.marks, &library.components, &[0; 8], 3);
    let refused = Input { marks: forty.marks.clone(), ..taken.clone() };
    for call in [REGIONS, PACK_VECTORS, WRITE] {
        call.gives(0, &taken);
        call.gives(8, &refused);
    }

    let Match { k, query, .. } = Match::of(&bytes);
    assert_eq!((k, query[35], reference::query(8, &query, 8).is_ok()), (3, 6, true), "k, a held reading, none absent");
    assert_eq!(reference::program(&with_marks(&bytes, &forty.marks)), "refused 8\n");
    assert_eq!(reference::program(&bytes), "3 5\n40 1800 25424\n37 1702 769866\n36 1701 1003625\n");
}
