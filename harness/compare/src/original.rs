//! The original's answer to a request, and document 02's about the primitive surface. The original has no walk: the plain one over
//! its box state stands in.

use crate::walk;
use request::{Answer, Call, Request};

pub fn answer(request: &Request) -> Answer {
    match request.call {
        Call::Walk => walk::answer(request),
        _ => reference::answer(request),
    }
}

#[cfg(test)]
mod tests {
    use super::*;
    use crate::entries::*;
    use crate::{added, cases};
    use request::Value;
    use std::f64::consts::TAU;

    /// Requests of a call that are accepted, about one surface.
    fn accepted(call: Call, kind: i64, chances: u64) -> impl Iterator<Item = Request> {
        let chances = (0..chances).map(move |index| cases::by_chance(call, 3, index));
        let all = cases::systematic(call).into_iter().chain(chances);
        let about = all.map(move |mut request| {
            request.description[KIND] = kind;
            request
        });
        about.filter(|request| added::refusal(request).is_none())
    }

    /// What answers for the primitive surface, asked about the network in its place, says what the original says.
    #[test]
    fn the_port_about_the_network_is_the_original() {
        if !reference::AT_HAND {
            return;
        }
        for &call in Call::ALL.iter().filter(|call| **call != Call::Walk) {
            let mut found = 0;
            for request in accepted(call, NETWORK, 5_000) {
                let (original, ported) = (reference::answer(&request), reference::ported(&request));
                assert!(ported.same(&original), "{request}: {ported}, the original {original}");
                found += u32::from(matches!(original, Answer::Found(_)));
            }
            assert!(found > 200, "{}: {found} found", call.name());
        }
    }

    /// The doubles of an answer, as intervals; none where there is nothing.
    fn intervals(answer: &Answer) -> Vec<[f64; 2]> {
        let Answer::Found(found) = answer else { return Vec::new() };
        let doubles = found.iter().map(|value| if let Value::Double(v) = value { *v } else { f64::NAN });
        doubles.collect::<Vec<_>>().chunks_exact(2).map(|ends| [ends[0], ends[1]]).collect()
    }

    /// The angles of a place in a box, as a part of its spans; nothing where doubles are too coarse for them.
    fn angles(request: &Request, part: f64) -> Option<[f64; 3]> {
        let at = [0, 2, 4].map(|i| request.doubles[i] + part * (request.doubles[i + 1] - request.doubles[i]));
        let turns = at.map(|v| v * 1024.0 / request.description[PERIOD] as f64);
        turns.iter().all(|v| v.abs() < 1e4).then(|| turns.map(|v| v * TAU))
    }

    /// What a call about the primitive surface at a constant level comes to at these angles, each number with its unit.
    fn plain(request: &Request, angles: [f64; 3]) -> Vec<(f64, f64)> {
        let d = &request.description;
        let k = TAU * 1024.0 / d[PERIOD] as f64;
        let value: f64 = angles.iter().map(|angle| angle.cos()).sum();
        let gradient = angles.map(|angle| (-k * angle.sin(), k));
        let second = |i: usize| if i % 4 == 0 { -k * k * angles[i / 4].cos() } else { 0.0 };
        match request.call {
            Call::Jet => [(value, 1.0)].into_iter().chain(gradient).collect(),
            Call::Derivatives => gradient.into_iter().chain((0..9).map(|i| (second(i), k * k))).collect(),
            _ => vec![(value - d[START] as f64 / 1024.0, 1.0)],
        }
    }

    /// The primitive surface by a library's sine and cosine: values, gradients and Hessians lie in their enclosures, but for the
    /// library's rounding.
    #[test]
    fn the_primitive_surface_in_plain_doubles() {
        if !reference::AT_HAND {
            return;
        }
        for call in [Call::Jet, Call::Derivatives, Call::Residual] {
            let mut seen = 0;
            for request in accepted(call, PRIMITIVE, 5_000).filter(|r| r.description[LEVEL_KIND] == CONSTANT) {
                let enclosures = intervals(&answer(&request));
                for angles in [0.0, 0.3, 1.0].into_iter().filter_map(|part| angles(&request, part)) {
                    for ([lo, hi], (v, unit)) in enclosures.iter().zip(plain(&request, angles)) {
                        let near = 1e-6 * unit;
                        assert!(lo - near <= v && v <= hi + near, "{request}: {v} is not in {lo} to {hi}");
                        seen += 1;
                    }
                }
            }
            assert!(seen > 500, "{}: {seen}", call.name());
        }
    }
}
