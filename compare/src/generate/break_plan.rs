//! Damages to a plan: each breaks one clause of one refusal, and no other rule that would be looked at before it.

use super::ends::{hashed, hours_minutes, padded};
use super::plan::{
    add_bitfield, add_category, bitfield_of, new_bitfield, new_code, new_stop, random_code, set_bit, Call, Category,
    Given, Plan, Range, Service,
};
use super::rng::Rng;
use super::sheet::{opening_tag, Tag};

/// The line that a damage brings its refusal at.
#[derive(Clone, Copy, Debug, PartialEq, Eq)]
pub enum At {
    Tag(Tag),
    /// The line of a service that is so many lines of its kind (like the tag) after the first.
    Nth(Tag, usize),
    Line(u32),
}

/// The file and line of a refusal; `None` where the plan has no place for the damage.
pub type Hit = Option<(u32, At)>;

pub type PlanDamage = fn(&mut Rng, &mut Plan) -> Hit;

/// Every damage with its refusal.
pub const DAMAGES: &[(u32, PlanDamage)] = &[
    (6, double_bitfield),
    (6, double_stop),
    (6, double_record),
    (6, double_code),
    (7, bitfield_zero),
    (7, stop_reserved),
    (7, first_record_other),
    (8, frame_bit),
    (9, record_unknown),
    (9, call_unknown),
    (10, bitfield_unknown),
    (13, many_calls),
    (13, many_categories),
    (13, many_days),
    (13, many_others),
    (14, few_calls),
    (15, missing_time),
    (15, falling_time),
    (16, index_past_route),
    (16, stop_off_route),
    (16, appearance_past_last),
    (16, time_not_found),
    (16, wrong_order),
    (17, bare_category),
    (17, double_category),
    (18, bare_days),
    (18, double_days),
    (19, torn),
    (37, group_missing_or_alone),
    (37, first_group_missing_or_alone),
    (38, category_unlisted),
    (38, no_categories),
];

fn later_place(rng: &mut Rng, items: usize) -> Option<(usize, usize)> {
    if items == 0 {
        return None;
    }
    let seen = rng.index(items);
    Some((seen, rng.between(seen as u32 + 1, items as u32) as usize))
}

fn double_bitfield(rng: &mut Rng, plan: &mut Plan) -> Hit {
    let (seen, at) = later_place(rng, plan.bitfields.len())?;
    let days = bitfield_of(plan.days, |_| rng.coin());
    plan.bitfields.insert(at, (plan.bitfields[seen].0, days));
    Some((2, At::Tag(Tag::BitField(at))))
}

fn double_stop(rng: &mut Rng, plan: &mut Plan) -> Hit {
    let (seen, at) = later_place(rng, plan.stops.len())?;
    plan.stops.insert(at, plan.stops[seen]);
    Some((3, At::Tag(Tag::Stop(at))))
}

fn double_record(rng: &mut Rng, plan: &mut Plan) -> Hit {
    let (seen, at) = later_place(rng, plan.interchange.len())?;
    plan.interchange.insert(at, (plan.interchange[seen].0, 1, 2));
    Some((4, At::Tag(Tag::Record(at))))
}

/// A tariff group where there was none, or none where there was one.
fn regroup(rng: &mut Rng, group: Option<u8>) -> Option<u8> {
    match group {
        None => Some(rng.pick(b"ABCDEFGH")),
        Some(_) => None,
    }
}

/// 6 comes before 37: the later line may be without its tariff group, or alone with one.
fn double_code(rng: &mut Rng, plan: &mut Plan) -> Hit {
    let (seen, at) = later_place(rng, plan.categories.len())?;
    let Category { code, class, group } = plan.categories[seen];
    let group = if rng.coin() { regroup(rng, group) } else { group };
    plan.categories.insert(at, Category { code, class, group });
    Some((6, At::Tag(Tag::Category(at))))
}

/// At least two categories.
fn two_categories(rng: &mut Rng, plan: &mut Plan) {
    while plan.categories.len() < 2 {
        add_category(rng, plan);
    }
}

/// Some categories behind the first are without a tariff group, or alone with one: the first of them is told.
fn group_missing_or_alone(rng: &mut Rng, plan: &mut Plan) -> Hit {
    two_categories(rng, plan);
    let at = rng.between(1, plan.categories.len() as u32 - 1) as usize;
    plan.categories[at].group = regroup(rng, plan.categories[at].group);
    for later in at + 1..plan.categories.len() {
        if rng.coin() {
            plan.categories[later].group = regroup(rng, plan.categories[later].group);
        }
    }
    Some((6, At::Tag(Tag::Category(at))))
}

/// Only the first is without one, or has one: the second is told.
fn first_group_missing_or_alone(rng: &mut Rng, plan: &mut Plan) -> Hit {
    two_categories(rng, plan);
    plan.categories[0].group = regroup(rng, plan.categories[0].group);
    Some((6, At::Tag(Tag::Category(1))))
}

fn category_unlisted(rng: &mut Rng, plan: &mut Plan) -> Hit {
    let s = some_service(rng, plan, |_| true)?;
    let unlisted = new_code(rng, plan);
    let i = some_range(rng, &plan.services[s], is_category)?;
    plan.services[s].ranges[i].given = Given::Category(unlisted);
    Some((5, At::Tag(Tag::G(s, i))))
}

/// ZUGART without a record is right, and every *G is refused: the first of the first service.
fn no_categories(_: &mut Rng, plan: &mut Plan) -> Hit {
    plan.services.first()?;
    plan.categories.clear();
    Some((5, At::Nth(Tag::G(0, 0), 0)))
}

fn bitfield_zero(rng: &mut Rng, plan: &mut Plan) -> Hit {
    let at = rng.index(plan.bitfields.len() + 1);
    plan.bitfields.insert(at, (0, bitfield_of(plan.days, |_| true)));
    Some((2, At::Tag(Tag::BitField(at))))
}

fn stop_reserved(rng: &mut Rng, plan: &mut Plan) -> Hit {
    let at = rng.index(plan.stops.len() + 1);
    let number = if rng.coin() { 9_999_999 } else { 100_000 * rng.below(100) };
    plan.stops.insert(at, number);
    Some((3, At::Tag(Tag::Stop(at))))
}

fn first_record_other(rng: &mut Rng, plan: &mut Plan) -> Hit {
    let stop = if plan.stops.is_empty() || rng.once_in(4) { 9_999_998 } else { rng.pick(&plan.stops) };
    match rng.below(3) {
        0 => plan.interchange.insert(0, (stop, 2, 3)),
        1 if plan.interchange.len() > 1 => {
            plan.interchange.remove(0);
        }
        _ => plan.interchange[0].0 = stop,
    }
    Some((4, At::Tag(Tag::Record(0))))
}

fn frame_bit(rng: &mut Rng, plan: &mut Plan) -> Hit {
    if plan.bitfields.is_empty() {
        let days = bitfield_of(plan.days, |_| true);
        add_bitfield(rng, plan, days);
    }
    let at = rng.index(plan.bitfields.len());
    let n = plan.days;
    let frame = rng.pick(&[0, 1, n + 2, n + 3]);
    let words = &mut plan.bitfields[at].1;
    if n + 4 <= 383 && rng.coin() {
        set_bit(words, rng.between(n + 4, 383), true);
    } else {
        set_bit(words, frame, false);
    }
    Some((2, At::Tag(Tag::BitField(at))))
}

/// A number that BAHNHOF does not hold.
fn unknown_stop(rng: &mut Rng, plan: &Plan) -> u32 {
    if rng.once_in(4) {
        100_000 * rng.below(100)
    } else {
        new_stop(rng, plan)
    }
}

fn record_unknown(rng: &mut Rng, plan: &mut Plan) -> Hit {
    let at = rng.between(1, plan.interchange.len() as u32) as usize;
    plan.interchange.insert(at, (unknown_stop(rng, plan), 2, 3));
    Some((4, At::Tag(Tag::Record(at))))
}

/// The *Z or *T line of a service.
fn opening(plan: &Plan, s: usize) -> At {
    At::Tag(opening_tag(&plan.services[s], s))
}

/// The place of a service that fits.
fn some_service(rng: &mut Rng, plan: &Plan, fits: impl Fn(&Service) -> bool) -> Option<usize> {
    let fitting: Vec<usize> = (0..plan.services.len()).filter(|s| fits(&plan.services[*s])).collect();
    if fitting.is_empty() {
        None
    } else {
        Some(rng.pick(&fitting))
    }
}

/// The place of a range that fits, in its service.
fn some_range(rng: &mut Rng, service: &Service, fits: impl Fn(&Range) -> bool) -> Option<usize> {
    let fitting: Vec<usize> = (0..service.ranges.len()).filter(|i| fits(&service.ranges[*i])).collect();
    if fitting.is_empty() {
        None
    } else {
        Some(rng.pick(&fitting))
    }
}

fn call_unknown(rng: &mut Rng, plan: &mut Plan) -> Hit {
    let s = some_service(rng, plan, |_| true)?;
    let stop = if rng.once_in(4) { 9_999_999 } else { unknown_stop(rng, plan) };
    let i = rng.index(plan.services[s].calls.len());
    plan.services[s].calls[i].stop = stop;
    Some((5, At::Tag(Tag::Call(s, i))))
}

fn range_tag(s: usize, i: usize, given: Given) -> Tag {
    match given {
        Given::Category(_) => Tag::G(s, i),
        Given::Days(_) => Tag::Ve(s, i),
        Given::Other(..) => Tag::Other(s, i),
    }
}

fn bitfield_unknown(rng: &mut Rng, plan: &mut Plan) -> Hit {
    let s = some_service(rng, plan, |_| true)?;
    let unknown = new_bitfield(rng, plan);
    let i = some_range(rng, &plan.services[s], |range| !matches!(range.given, Given::Category(_)))?;
    let range = &mut plan.services[s].ranges[i];
    match &mut range.given {
        Given::Days(bitfield) | Given::Other(_, bitfield) => *bitfield = unknown,
        Given::Category(_) => {}
    }
    Some((5, At::Tag(range_tag(s, i, range.given))))
}

/// Keeps only the service, and of it only as many calls; what refusal 13 needs is long enough without the rest.
fn alone(rng: &mut Rng, plan: &mut Plan, calls: usize) -> Option<usize> {
    let s = some_service(rng, plan, |_| true)?;
    if rng.coin() {
        plan.services = vec![plan.services[s].clone()];
        plan.services[0].ranges.clear();
        plan.services[0].calls.truncate(calls);
        return Some(0);
    }
    Some(s)
}

fn many_calls(rng: &mut Rng, plan: &mut Plan) -> Hit {
    let s = alone(rng, plan, 2)?;
    let calls = &mut plan.services[s].calls;
    let last = calls[calls.len() - 1];
    let one = Call { departure: last.arrival, ..last };
    calls.resize(200, one);
    // "Within a line by the order ... 13 ... 9": the first over may call at an unknown stop as well.
    let stop = if rng.coin() { 9_999_999 } else { last.stop };
    calls.resize(201 + rng.index(3), Call { stop, ..one });
    Some((5, At::Nth(Tag::Call(s, 0), 200)))
}

fn many(rng: &mut Rng, plan: &mut Plan, most: usize, given: Given, tag: fn(usize, usize) -> Tag) -> Hit {
    let s = alone(rng, plan, 2)?;
    let ranges = &mut plan.services[s].ranges;
    let there = ranges.iter().filter(|range| std::mem::discriminant(&range.given) == std::mem::discriminant(&given));
    for _ in there.count()..most + 1 + rng.index(2) {
        ranges.push(Range::new(given, 0, 1));
    }
    Some((5, At::Nth(tag(s, 0), most)))
}

fn many_categories(rng: &mut Rng, plan: &mut Plan) -> Hit {
    let category = add_category(rng, plan);
    many(rng, plan, 50, Given::Category(category), Tag::G)
}

fn many_days(rng: &mut Rng, plan: &mut Plan) -> Hit {
    many(rng, plan, 50, Given::Days(0), Tag::Ve)
}

fn many_others(rng: &mut Rng, plan: &mut Plan) -> Hit {
    let code = random_code(rng);
    many(rng, plan, 100, Given::Other(code, 0), Tag::Other)
}

fn few_calls(rng: &mut Rng, plan: &mut Plan) -> Hit {
    let s = some_service(rng, plan, |_| true)?;
    plan.services[s].calls.truncate(rng.index(2));
    Some((5, opening(plan, s)))
}

fn missing_time(rng: &mut Rng, plan: &mut Plan) -> Hit {
    let s = some_service(rng, plan, |_| true)?;
    let calls = &mut plan.services[s].calls;
    let last = calls.len() - 1;
    let any = rng.index(last + 1);
    let i = rng.pick(&[0, last, any]);
    if i == 0 || (i < last && rng.coin()) {
        calls[i].departure = None;
    } else {
        calls[i].arrival = None;
    }
    Some((5, At::Tag(Tag::Call(s, i))))
}

fn falling_time(rng: &mut Rng, plan: &mut Plan) -> Hit {
    let s = some_service(rng, plan, |_| true)?;
    let mut before = 0;
    let mut falling = Vec::new();
    for (i, call) in plan.services[s].calls.iter().enumerate() {
        for (arrival, time) in [(true, call.arrival), (false, call.departure)] {
            if time.is_some() && before > 0 {
                falling.push((i, arrival, before));
            }
            before = time.unwrap_or(before);
        }
    }
    if falling.is_empty() {
        return None;
    }
    let (i, arrival, before) = rng.pick(&falling);
    let lower = Some(if rng.coin() { before - 1 } else { rng.below(before) });
    let call = &mut plan.services[s].calls[i];
    *(if arrival { &mut call.arrival } else { &mut call.departure }) = lower;
    Some((5, At::Tag(Tag::Call(s, i))))
}

/// An end and its detail for a range of the service, a *from* or not.
type EndWriter = fn(&mut Rng, &Plan, &Service, bool) -> Option<(Vec<u8>, Vec<u8>)>;

/// Writes an end of some range anew.
fn other_end(rng: &mut Rng, plan: &mut Plan, text: EndWriter) -> Hit {
    let s = some_service(rng, plan, |_| true)?;
    let service = &plan.services[s];
    let i = some_range(rng, service, |_| true)?;
    let from = rng.coin();
    let text = text(rng, plan, service, from)?;
    let range = &mut plan.services[s].ranges[i];
    *(if from { &mut range.from_text } else { &mut range.to_text }) = Some(text);
    Some((5, At::Tag(range_tag(s, i, range.given))))
}

fn index_past_route(rng: &mut Rng, plan: &mut Plan) -> Hit {
    other_end(rng, plan, |rng, _, service, _| {
        let index = service.calls.len() + rng.pick(&[0, 0, 1, 99_000]);
        Some((hashed(rng, index, 7), b"      ".to_vec()))
    })
}

fn stop_off_route(rng: &mut Rng, plan: &mut Plan) -> Hit {
    other_end(rng, plan, |rng, plan, service, _| {
        let off = |stop: &u32| service.calls.iter().all(|call| call.stop != *stop);
        let stop = plan.stops.iter().copied().find(off).unwrap_or_else(|| unknown_stop(rng, plan));
        let detail = rng.pick(&[*b"      ", *b"#0    ", *b" 00000"]);
        Some((format!("{:07}", stop).into_bytes(), detail.to_vec()))
    })
}

fn appearance_past_last(rng: &mut Rng, plan: &mut Plan) -> Hit {
    other_end(rng, plan, |rng, _, service, _| {
        let stop = rng.pick(&service.calls).stop;
        let appearances = service.calls.iter().filter(|call| call.stop == stop).count();
        let nth = appearances + rng.pick(&[0, 0, 1, 9_000]);
        let text = format!("#{}", nth);
        Some((format!("{:07}", stop).into_bytes(), padded(rng, text.as_bytes(), 6)))
    })
}

fn time_not_found(rng: &mut Rng, plan: &mut Plan) -> Hit {
    other_end(rng, plan, |rng, _, service, from| {
        let call = rng.pick(&service.calls);
        let wrong_sort = if from { call.arrival } else { call.departure };
        let any = rng.below(60_000);
        let minutes = rng.pick(&[0, wrong_sort.unwrap_or(0), any]);
        let stated = |other: &Call| if from { other.departure } else { other.arrival };
        if service.calls.iter().any(|other| other.stop == call.stop && stated(other) == Some(minutes)) {
            return None;
        }
        let detail = format!("{}{}", rng.pick(&[" ", "-"]), hours_minutes(minutes));
        Some((format!("{:07}", call.stop).into_bytes(), detail.into_bytes()))
    })
}

fn wrong_order(rng: &mut Rng, plan: &mut Plan) -> Hit {
    let s = some_service(rng, plan, |_| true)?;
    let service = &mut plan.services[s];
    let other = |range: &Range| matches!(range.given, Given::Other(..));
    let i = some_range(rng, service, |range| !other(range) || range.from < range.to)?;
    let range = &mut service.ranges[i];
    if !other(range) && rng.coin() {
        range.to = range.from;
    } else {
        std::mem::swap(&mut range.from, &mut range.to);
    }
    Some((5, At::Tag(range_tag(s, i, range.given))))
}

/// Takes a range of a kind away, or its first or last leg.
fn bare(rng: &mut Rng, plan: &mut Plan, kind: fn(&Range) -> bool) -> Hit {
    let s = some_service(rng, plan, |_| true)?;
    let service = &mut plan.services[s];
    let i = some_range(rng, service, |range| kind(range) && range.from < range.to)?;
    let range = &mut service.ranges[i];
    match rng.below(3) {
        0 if range.to - range.from > 1 => range.from += 1,
        1 if range.to - range.from > 1 => range.to -= 1,
        _ => {
            service.ranges.remove(i);
        }
    }
    Some((5, opening(plan, s)))
}

/// Covers a leg twice by ranges of a kind.
fn double(rng: &mut Rng, plan: &mut Plan, kind: fn(&Range) -> bool) -> Hit {
    let s = some_service(rng, plan, |service| service.ranges.iter().filter(|range| kind(range)).count() < 50)?;
    let service = &mut plan.services[s];
    let i = some_range(rng, service, |range| kind(range) && range.from < range.to)?;
    let (from, to) = (service.ranges[i].from, service.ranges[i].to);
    let from = rng.between(from as u32, to as u32 - 1) as usize;
    let to = rng.between(from as u32 + 1, service.calls.len() as u32 - 1) as usize;
    let given = service.ranges[i].given;
    let at = rng.index(service.ranges.len() + 1);
    service.ranges.insert(at, Range::new(given, from, to));
    Some((5, opening(plan, s)))
}

fn is_category(range: &Range) -> bool {
    matches!(range.given, Given::Category(_))
}

fn is_days(range: &Range) -> bool {
    matches!(range.given, Given::Days(_))
}

fn bare_category(rng: &mut Rng, plan: &mut Plan) -> Hit {
    bare(rng, plan, is_category)
}

fn double_category(rng: &mut Rng, plan: &mut Plan) -> Hit {
    double(rng, plan, is_category)
}

fn bare_days(rng: &mut Rng, plan: &mut Plan) -> Hit {
    bare(rng, plan, is_days)
}

fn double_days(rng: &mut Rng, plan: &mut Plan) -> Hit {
    double(rng, plan, is_days)
}

/// On one day the outer parts run and the middle one does not; on the other days anything.
fn torn(rng: &mut Rng, plan: &mut Plan) -> Hit {
    let s = some_service(rng, plan, |service| service.calls.len() >= 4)?;
    let legs = plan.services[s].calls.len() - 1;
    let a = rng.between(1, legs as u32 - 2) as usize;
    let b = rng.between(a as u32 + 1, legs as u32 - 1) as usize;
    let bad = rng.below(plan.days);
    let plain = rng.coin();
    let outer = bitfield_of(plan.days, |d| d == bad || (!plain && rng.coin()));
    let middle = bitfield_of(plan.days, |d| d != bad && (plain || rng.coin()));
    let outer = if rng.coin() { 0 } else { add_bitfield(rng, plan, outer) };
    let middle = add_bitfield(rng, plan, middle);
    let first = if rng.coin() { 0 } else { outer };
    let service = &mut plan.services[s];
    service.ranges.retain(|range| !is_days(range));
    for (bitfield, from, to) in [(first, 0, a), (middle, a, b), (outer, b, legs)] {
        let at = rng.index(service.ranges.len() + 1);
        service.ranges.insert(at, Range::new(Given::Days(bitfield), from, to));
    }
    Some((5, opening(plan, s)))
}
