//! What the safe functions do not show.

use super::*;

#[test]
fn a_byte_that_is_not_kept_is_0() {
    let before = Slave { has_pending: false, pending_byte: 0x33, address: 0x155, general_call: true };
    let left = slave_respond_till_stop(before, 1, &[], &mut [0; 2]);
    assert_eq!((left.state.has_pending, left.state.pending_byte), (false, 0));
    assert_eq!((left.state.address, left.state.general_call), (0x155, true));
    assert_eq!((left.report.number, left.report.entries, left.report.used), (18, 0, 0));
}

#[test]
fn causes_of_a_word() {
    let fields = |word| {
        let AbortCauses { count, lowest } = causes(word);
        (count, lowest)
    };
    for (word, expected) in [
        (0, (0, 0)),
        (0x0080_0000, (0, 0)),
        (0xFFFE_0000, (0, 0)),
        (1, (1, 0)),
        (0x8, (1, 3)),
        (0x1008, (2, 3)),
        (0x1_FFFF, (17, 0)),
        (0x1_0000, (1, 16)),
        (0xFFFF_FFFF, (17, 0)),
    ] {
        assert_eq!(fields(word), expected, "word {word:#X}");
    }
}

#[test]
fn an_access_has_only_its_own_fields() {
    let fields = |access: Access| (access.kind, access.register, access.number, access.value);
    let mut words = [0; 20];
    start(&mut words, 0, 0x42, &[0], &[1], 0, 1);
    assert_eq!(fields(next_access(&words, &[])), (2, 0x6C, 0, 0));
    assert_eq!(fields(step(&mut words, 0, &[0], &[1], &[], &mut [0])), (2, 0x04, 0, 0x42));
    start(&mut words, 0, 0xFFFF, &[0], &[1], 0, 1);
    assert_eq!(fields(next_access(&words, &[])), (0, 0, 6, 0xFFFF));
    assert_eq!(fields(step(&mut words, 0, &[0], &[1], &[], &mut [0])), (0, 0, 6, 0xFFFF));
}

#[test]
fn kinds_that_are_not_of_the_form_are_20() {
    let refused = |form, kinds: &[u8], lengths: &[u16], written, room| {
        let mut words = [0; 20];
        start(&mut words, form, 0x42, kinds, lengths, written, room);
        let access = next_access(&words, &[0; 2][..written]);
        (access.kind, access.register, access.number, access.value) == (0, 0, 20, 0)
    };
    let listed: [(&[u8], &[u16], usize, usize); 6] = [
        (&[], &[], 0, 0),
        (&[0], &[1], 0, 1),
        (&[1], &[1], 1, 0),
        (&[1, 0], &[1, 1], 1, 1),
        (&[0, 1], &[1, 1], 1, 1),
        (&[0, 0], &[1, 1], 0, 2),
    ];
    for form in 0..=255 {
        for (place, (kinds, lengths, written, room)) in listed.into_iter().enumerate() {
            let of_the_form = form < 8 && (form % 4 == 3 || place == usize::from(form % 4) + 1);
            assert_eq!(refused(form, kinds, lengths, written, room), !of_the_form, "form {form}, kinds {kinds:?}");
        }
    }
}
