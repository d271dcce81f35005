//! A file as a level designer's rules might give it.

use oracle::file::{Anchor, Op, RuleFile, Slot, Type};
use oracle::fixed::sketch::{Sketch, field};

/// Some 500 bytes and 6 levels: rooms, the doors between them and their lights.
pub fn typical() -> RuleFile {
    let mut s = Sketch::default();
    let (int, text, room_ref) = (s.ty(Type::Int), s.ty(Type::Str), s.ty(Type::Fact(0)));
    let kind = s.union_ty(&[("open", 1, int), ("locked", 2, text)]);
    let room = s.record_ty(&[
        ("floor", int),
        ("tag", text),
        ("kind", kind),
        ("name", text),
    ]);
    let door = s.record_ty(&[
        ("from", room_ref),
        ("to", room_ref),
        ("tag", text),
        ("cost", int),
    ]);
    let light = s.record_ty(&[("room", room_ref), ("level", int)]);
    let (rooms, doors, lights) = (s.predicate(room), s.predicate(door), s.predicate(light));

    s.bind("start", Slot::Row(0, rooms));
    // The hall's row was fetched by the door's second field.
    s.fetch(1, field(1, &[]), 6);
    let forty = s.int(40);
    s.bind("limit", Slot::Const(forty));

    start_room(&mut s, rooms);
    door_to_the_hall(&mut s, doors);
    light_in_the_hall(&mut s, lights);
    locked_room(&mut s, rooms);
    way_back(&mut s, doors);
    light_at_the_start(&mut s, lights);
    s.file
}

fn start_room(s: &mut Sketch, rooms: u16) {
    let (floor, tag) = (s.int(7), s.prefix("k"));
    let key = s.record(&[("floor", floor), ("tag", tag)]);
    s.level(rooms, key, 0);
}

/// The door's tag is bound, and constrained twice.
fn door_to_the_hall(s: &mut Sketch, doors: u16) {
    let (from, to, tag) = (s.var("start"), s.var("hall"), s.var("door"));
    let key = s.record(&[("from", from), ("to", to), ("tag", tag)]);
    s.level(doors, key, 1);
    let (prefix, fuzzy) = (s.prefix("gate"), s.fuzzy("gatehouse", 2, Anchor::Whole));
    s.constrain("door", fuzzy);
    s.constrain("door", prefix);
}

/// The light's level is bound, and has both edges.
fn light_in_the_hall(s: &mut Sketch, lights: u16) {
    let (room, level) = (s.var("hall"), s.var("bright"));
    let key = s.record(&[("room", room), ("level", level)]);
    s.level(lights, key, 2);
    let (left, low) = (s.var("bright"), s.int(3));
    s.compare(Op::Ge, left, low);
    let (high, right) = (s.var("limit"), s.var("bright"));
    s.compare(Op::Gt, high, right);
}

/// On the start's floor, by a read of its key.
fn locked_room(s: &mut Sketch, rooms: u16) {
    let start = s.var("start");
    let floor = s.access("floor", start);
    let by = s.var("colour");
    let kind = s.record(&[("locked", by)]);
    let name = s.prefix("old");
    let key = s.record(&[("floor", floor), ("kind", kind), ("name", name)]);
    s.level(rooms, key, 3);
}

fn way_back(s: &mut Sketch, doors: u16) {
    let (from, to, tag) = (s.var("hall"), s.var("start"), s.var("colour"));
    let cost = s.int(3);
    let key = s.record(&[("from", from), ("to", to), ("tag", tag), ("cost", cost)]);
    s.level(doors, key, 4);
}

/// As bright as the hall's floor is high, a read through the reference.
fn light_at_the_start(s: &mut Sketch, lights: u16) {
    let (room, hall) = (s.var("start"), s.var("hall"));
    let level = s.access("floor", hall);
    let key = s.record(&[("room", room), ("level", level)]);
    s.level(lights, key, 5);
}
