//! Numbers and texts of what the calls take and answer, each way.

use gyroid_cells::{Bounds, Description, Piece, Refusal, State, Surface, TieRule, UnknownNumber};

const REFUSALS: [u32; 16] = [1, 2, 3, 4, 5, 6, 7, 8, 9, 10, 11, 12, 13, 15, 16, 17];

/// The numbers below 200, and the largest, that a type knows.
fn known<T: TryFrom<u32>>() -> Vec<u32> {
    (0..200).chain([u32::MAX]).filter(|number| T::try_from(*number).is_ok()).collect()
}

#[test]
fn numbers_and_back() {
    assert_eq!(known::<State>(), [1, 2, 3]);
    assert_eq!(known::<Piece>(), [0, 1, 2]);
    assert_eq!(known::<TieRule>(), [0, 1]);
    assert_eq!(known::<Refusal>(), REFUSALS);
    for state in [State::Inside, State::Outside, State::Unsettled] {
        assert_eq!(State::try_from(state as u32), Ok(state));
    }
    for piece in [Piece::Start, Piece::Ramp, Piece::End] {
        assert_eq!(Piece::try_from(piece as u32), Ok(piece));
    }
    for rule in [TieRule::GradeAxis, TieRule::LowestAxis] {
        assert_eq!(TieRule::try_from(rule as u32), Ok(rule));
    }
    assert_eq!(TieRule::try_from(0), Ok(TieRule::default()));
    let core = Description::linear(10240, [1, 2, 3], [4, 5, 6], 7, 8);
    for surface in [Surface::Network, Surface::Primitive] {
        let made = core.with_surface(surface);
        assert_eq!(made.surface(), Some(surface));
        assert_eq!(made.with_surface(Surface::Network), core);
    }
    for kind in [i64::MIN, -1, 1, 3, 1 << 32, i64::MAX] {
        assert_eq!(Description { kind, ..core }.surface(), None);
    }
    for number in REFUSALS {
        assert_eq!(Refusal::try_from(number).map(Refusal::number), Ok(number));
    }
    assert_eq!(Refusal::try_from(14), Err(UnknownNumber(14)));
}

#[test]
fn texts() {
    assert_eq!(
        [State::Inside, State::Outside, State::Unsettled].map(|state| state.to_string()).join(" "),
        "inside outside unsettled"
    );
    assert_eq!(format!("{:>8}|", State::Inside), "  inside|");
    let entries = [1, 2, 3, 4, -5, 6, 7, 8, 9, 10, 11, 12, 13, 14, 15, 16, 17, i64::MIN];
    let text = "1 2 3 4 -5 6 7 8 9 10 11 12 13 14 15 16 17 -9223372036854775808";
    assert_eq!(Description::from_entries(entries).to_string(), text);
    let mut said: Vec<_> = REFUSALS.map(|number| Refusal::try_from(number).unwrap().to_string()).to_vec();
    assert_eq!(said[11], "refused 12: the depth is below 0 or above 24");
    assert_eq!(said[13], "refused 15: the table is not sound");
    said.dedup();
    assert_eq!(said.len(), REFUSALS.len());
    assert_eq!(UnknownNumber(14).to_string(), "14 stands for nothing");
}

#[test]
fn volumes() {
    let volume = |low, high| Bounds { low, high }.volume();
    assert_eq!(volume([0; 3], [0, 5, 5]), Some(0));
    assert_eq!(volume([-3, -2, -1], [0; 3]), Some(6));
    assert_eq!(volume([i64::MIN; 3], [i64::MIN + 1, i64::MIN + 1, i64::MAX]), Some(u64::MAX));
    assert_eq!(volume([i64::MIN; 3], [i64::MIN + 1, i64::MIN + 2, i64::MAX]), None);
    assert_eq!(volume([i64::MIN; 3], [i64::MAX; 3]), None);
    assert_eq!(volume([i64::MIN; 3], [i64::MAX, i64::MAX, i64::MIN]), Some(0));
    for axis in 0..3 {
        let mut high = [1; 3];
        high[axis] = -1;
        assert_eq!(volume([0; 3], high), None);
    }
}
