//! Status, messages and bytes of the commands.

use crate::{bad, good, EXAMPLE};

const EXAMPLE_FILE: [u8; 45] = [
    0x03, 0x00, 0x0E, 0x00, 0x05, 0x00, 0x13, 0x00, 0x0D, 0x00, 0x20, 0x00, 0x0D, 0x00, 0x01, 0x01,
    0x01, 0xB6, 0x01, 0x02, 0x01, 0x00, 0x00, 0x00, 0x00, 0x01, 0x00, 0x00, 0xFF, 0xFF, 0x00, 0x00,
    0x02, 0x02, 0x00, 0x00, 0x00, 0x00, 0x01, 0x00, 0x00, 0x01, 0x00, 0x00, 0x00,
];

#[test]
fn the_whole_example_of_45_bytes() {
    assert_eq!(good(&["assemble"], EXAMPLE.as_bytes()), EXAMPLE_FILE);
    assert_eq!(good(&["disassemble", "-"], &EXAMPLE_FILE), EXAMPLE.as_bytes());
}

/// The file of these bodies, which the text has to become and come back from.
fn are(text: &str, bodies: &[&[u8]]) {
    let mut file = vec![bodies.len() as u8, 0];
    let mut offset = 2 + 4 * bodies.len();
    for body in bodies {
        file.extend_from_slice(&[offset as u8, 0, body.len() as u8, 0]);
        offset += body.len();
    }
    file.extend_from_slice(&bodies.concat());
    assert_eq!(good(&["assemble"], text.as_bytes()), file);
    assert_eq!(good(&["disassemble"], &file), text.as_bytes());
}

/// In the body the caller comes first, in the text behind the first field.
#[test]
fn callers_to_bytes_and_back() {
    are(
        "create 3 by=2 mode=rw-r-----\ncreate 0 by=255 mode=177777\n\
        set -2 by=3 number=258 value=-1\nremove 258 by=4\nquery 1 by=5 number=6\n\
        as 6 user=67305985 group=4294967295\n",
        &[
            &[1, 2, 3, 160, 1],
            &[1, 255, 0, 255, 255],
            &[3, 3, 254, 255, 255, 255, 2, 1, 255, 255, 255, 255],
            &[4, 4, 2, 1, 0, 0],
            &[7, 5, 1, 0, 0, 0, 6, 0],
            &[12, 6, 1, 2, 3, 4, 255, 255, 255, 255],
        ],
    );
}

#[test]
fn all_values_to_bytes_and_back() {
    are(
        "set-all -2 by=1 values=1,-1,32768\nset-all 0 by=2 values=none\nread-all 258 by=3\n",
        &[
            &[10, 1, 254, 255, 255, 255, 3, 1, 0, 0, 0, 255, 255, 255, 255, 0, 128, 0, 0],
            &[10, 2, 0, 0, 0, 0, 0],
            &[11, 3, 2, 1, 0, 0],
        ],
    );
}

#[test]
fn waits_and_times_to_bytes_and_back() {
    are(
        "operate 1 set=-2 wait=67305985 0:-1\noperate 2 set=0 wait=0\n\
        time 578437695752307201\ntime 18446744073709551615\n",
        &[
            &[8, 1, 254, 255, 255, 255, 1, 2, 3, 4, 1, 0, 0, 255, 255, 0, 0],
            &[8, 2, 0, 0, 0, 0, 0, 0, 0, 0, 0],
            &[9, 1, 2, 3, 4, 5, 6, 7, 8],
            &[9, 255, 255, 255, 255, 255, 255, 255, 255],
        ],
    );
}

#[test]
fn no_events() {
    assert_eq!(good(&["assemble"], b""), [0, 0]);
    assert_eq!(good(&["disassemble"], &[0, 0]), b"");
}

#[test]
fn the_canonical_text() {
    let text =
        b"  create 3   by=01 #\n\noperate 4 set=0 07:5/nowait,0xF,undo\nquery 0 by=1 number=1\n\
        set-all 00  by=1 values=01,-0,+5#\noperate 5 set=0  wait=0250 0:-01\ntime 007\n\
        create 1 by=1 mode=0640\ncreate 1 by=1 mode=01640\nas 1 user=07 group=+9";
    let wanted = "create 3 by=1 mode=rw-rw-rw-\noperate 4 set=0 7:+5/undo,nowait,0x000f\n\
        query 0 by=1 number=1\nset-all 0 by=1 values=1,0,5\noperate 5 set=0 wait=250 0:-1\n\
        time 7\ncreate 1 by=1 mode=rw-r-----\ncreate 1 by=1 mode=1640\nas 1 user=7 group=9\n";
    let file = good(&["assemble"], &text[..]);
    assert_eq!(good(&["disassemble"], &file), wanted.as_bytes());
    assert_eq!(good(&["assemble"], wanted.as_bytes()), file);
}

#[test]
fn a_mistake_in_a_text_is_2() {
    for (text, wanted) in [
        (
            "exit 1\nset 0 by=1 number=x value=1",
            "2:19: expected the number of a semaphore, 0 to 65535, found 'x'\n",
        ),
        (
            "exit 1\n\nset-all 0 by=1 values=1,,5",
            "3:25: expected values -2147483648 to 2147483647 as in 1,0,5, or none, found nothing\n",
        ),
        (
            "time 5\noperate 1 set=0 wait=4294967296 0:-1",
            "2:22: expected a wait in milliseconds, 0 to 4294967295, found '4294967296'\n",
        ),
        (
            "as 1 user=7 group=9\nremove 0",
            "2:9: expected by= with a process, 0 to 255, found the end of the line\n",
        ),
    ] {
        for command in ["assemble", "story"] {
            assert_eq!(bad(&[command], text.as_bytes()), (2, wanted.to_string()));
        }
    }
}

#[test]
fn a_damaged_run_file_is_1() {
    let (status, words) = bad(&["disassemble"], &EXAMPLE_FILE[..44]);
    assert_eq!((status, &words[..]), (1, "bad 202: the last body ends at 45, the file at 44\n"));
}

#[test]
fn arguments() {
    assert!(good(&["--help"], b"").starts_with(b"usage:"));
    for arguments in [
        &[][..],
        &["replay"],
        &["assemble", "--run"],
        &["story", "--program"],
        &["disassemble", "-", "-"],
    ] {
        assert_eq!(bad(arguments, b"").0, 2, "{arguments:?}");
    }
    let (status, words) = bad(&["assemble", "no/such/file"], b"");
    assert!(status == 1 && words.starts_with("no/such/file: "), "{words}");
}
