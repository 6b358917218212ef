//! The kinds of damage.

use crate::edit::{add_to_number, copy_of, replace, write_number};
use crate::layout::{number_at, opcode_length, Kind, Layout, Method, Spot};
use crate::random::Random;
use crate::Aim;

/// How many of the kinds below, from the first, touch only code.
const CODE_KINDS: usize = 15;
const ALL_KINDS: usize = 24;

/// How often another kind is drawn where the bundle has no place for one.
const ATTEMPTS: usize = 8;

/// One damage; a byte is changed if no kind drawn finds a place.
pub fn damage(bundle: &mut Vec<u8>, others: &[Vec<u8>], aim: Aim, random: &mut Random) {
    let layout = Layout::of(bundle);
    let kinds = match aim {
        Aim::Code => CODE_KINDS,
        Aim::Anything => ALL_KINDS,
    };
    let done = (0..ATTEMPTS).any(|_| {
        let kind = random.below(kinds);
        attempt(kind, bundle, &layout, others, random).is_some()
    });
    if !done {
        change_byte(bundle, random);
    }
}

/// None, and nothing changed, if there is no place for the kind.
fn attempt(
    kind: usize,
    bundle: &mut Vec<u8>,
    layout: &Layout,
    others: &[Vec<u8>],
    random: &mut Random,
) -> Option<()> {
    match kind {
        0..=3 => change_opcode(bundle, layout, random),
        4..=6 => change_operand(bundle, layout, random),
        7 => change_branch(bundle, layout, random),
        8 => swap_instructions(bundle, layout, random),
        9 => resize_code(bundle, layout, random),
        10..=11 => change_frame(bundle, layout, random),
        12 => resize_frames(bundle, layout, random),
        13 => change_spot(bundle, layout, random, &[Kind::Table]),
        14 => change_spot(bundle, layout, random, &[Kind::Limit]),
        15 => change_pool(bundle, layout, random),
        16 => change_text(bundle, layout, random),
        17 => change_spot(bundle, layout, random, &[Kind::Access, Kind::Header]),
        18 => change_own_index(bundle, layout, random),
        19 => change_spot(bundle, layout, random, &[Kind::Count, Kind::FrameCount]),
        20 => change_length(bundle, layout, random),
        21 => move_member(bundle, layout, random),
        22 => move_class(bundle, layout, random, others),
        _ => cut_or_stuff(bundle, random),
    }
}

fn spot_of(layout: &Layout, random: &mut Random, kinds: &[Kind]) -> Option<Spot> {
    let fitting = layout
        .spots
        .iter()
        .filter(|spot| kinds.contains(&spot.kind));
    let fitting: Vec<Spot> = fitting.copied().collect();
    random.choose(&fitting).copied()
}

fn change_spot(
    bundle: &mut [u8],
    layout: &Layout,
    random: &mut Random,
    kinds: &[Kind],
) -> Option<()> {
    let spot = spot_of(layout, random, kinds)?;
    let value = number_at(bundle, spot.at, spot.width);
    let changed = match random.below(7) {
        0 | 1 => value.wrapping_add(1),
        2 | 3 => value.wrapping_sub(1),
        4 => random.below(40),
        5 => random.number() as usize,
        _ => {
            let other = spot_of(layout, random, &[spot.kind])?;
            number_at(bundle, other.at, other.width)
        }
    };
    write_number(bundle, spot.at, spot.width, changed);
    Some(())
}

/// Mostly to an opcode of the same length, so that the rest stays readable.
fn change_opcode(bundle: &mut [u8], layout: &Layout, random: &mut Random) -> Option<()> {
    let spot = spot_of(layout, random, &[Kind::Opcode])?;
    let old = *bundle.get(spot.at)?;
    let new = match random.below(8) {
        0 => random.byte(),
        1..=3 => relative_of(old, random),
        _ => {
            let length = opcode_length(old);
            let same = (0..=255).filter(|&opcode| opcode_length(opcode) == length);
            *random.choose(&same.collect::<Vec<u8>>())?
        }
    };
    write_number(bundle, spot.at, 1, usize::from(new));
    Some(())
}

/// An opcode near in meaning.
fn relative_of(opcode: u8, random: &mut Random) -> u8 {
    let families: [&[u8]; 9] = [
        &[0x01, 0x03, 0x04, 0x1a, 0x1b, 0x2a, 0x2b],
        &[0x15, 0x19, 0x10],
        &[0x3b, 0x3c, 0x4b, 0x4c, 0x57],
        &[0x59, 0x00, 0x5f, 0x5a],
        &[0x2e, 0x32, 0x60, 0x6c, 0x70, 0x78, 0x64],
        &[0xac, 0xb0, 0xb1, 0xbf],
        &[0x99, 0xc6, 0xc7, 0x9c],
        &[0xb6, 0xb7, 0xb8],
        &[0xbb, 0xc0, 0xc1, 0xbd],
    ];
    let family = families.iter().find(|family| family.contains(&opcode));
    let choice = family.and_then(|family| random.choose(family));
    choice.copied().unwrap_or(opcode ^ 1)
}

fn change_operand(bundle: &mut [u8], layout: &Layout, random: &mut Random) -> Option<()> {
    if random.one_in(3) {
        return change_spot(bundle, layout, random, &[Kind::Operand]);
    }
    let spot = spot_of(layout, random, &[Kind::PoolOperand])?;
    redirect(bundle, layout, random, spot)
}

/// Lets an index lead to another entry, mostly of the same kind.
fn redirect(bundle: &mut [u8], layout: &Layout, random: &mut Random, spot: Spot) -> Option<()> {
    let pool = layout.pools.get(spot.class)?;
    if random.one_in(6) {
        let index = random.below(pool.len() + 2);
        write_number(bundle, spot.at, spot.width, index);
        return Some(());
    }
    let old = number_at(bundle, spot.at, spot.width);
    let tag = pool.iter().find(|entry| entry.index == old)?.tag;
    let same = pool.iter().filter(|entry| entry.tag == tag);
    let same: Vec<usize> = same.map(|entry| entry.index).collect();
    let index = *random.choose(&same)?;
    write_number(bundle, spot.at, spot.width, index);
    Some(())
}

/// Mostly to another instruction of the same method.
fn change_branch(bundle: &mut [u8], layout: &Layout, random: &mut Random) -> Option<()> {
    let spot = spot_of(layout, random, &[Kind::Branch])?;
    if random.one_in(5) {
        add_to_number(bundle, spot.at, 2, 1);
        return Some(());
    }
    let mut methods = layout.methods.iter();
    let holds = |method: &&Method| method.instructions.iter().any(|i| i.contains(&spot.at));
    let target = random.choose(&methods.find(holds)?.instructions)?.start;
    let delta = target.wrapping_sub(spot.at.checked_sub(1)?);
    write_number(bundle, spot.at, 2, delta);
    Some(())
}

/// Two neighbours, or two of the same length anywhere in a method.
fn swap_instructions(bundle: &mut Vec<u8>, layout: &Layout, random: &mut Random) -> Option<()> {
    let method = random.choose(&layout.methods)?;
    let first = random.below(method.instructions.len());
    let one = method.instructions.get(first)?;
    if random.one_in(2) {
        let next = method.instructions.get(first + 1)?;
        let mut swapped = copy_of(bundle, next);
        swapped.extend(copy_of(bundle, one));
        replace(bundle, one.start..next.end, &swapped, &[]);
        return Some(());
    }
    let other = random.choose(&method.instructions)?;
    if other.len() != one.len() {
        return None;
    }
    let (one_bytes, other_bytes) = (copy_of(bundle, one), copy_of(bundle, other));
    replace(bundle, one.clone(), &other_bytes, &[]);
    replace(bundle, other.clone(), &one_bytes, &[]);
    Some(())
}

/// Blanks, removes, doubles or inserts an instruction; lengths follow.
fn resize_code(bundle: &mut Vec<u8>, layout: &Layout, random: &mut Random) -> Option<()> {
    let method = random.choose(&layout.methods)?;
    let one = random.choose(&method.instructions)?;
    let lengths = [method.attribute_length_at, method.code_length_at];
    match random.below(4) {
        0 => replace(bundle, one.clone(), &vec![0; one.len()], &lengths),
        1 => replace(bundle, one.clone(), &[], &lengths),
        2 => {
            let double = copy_of(bundle, one);
            replace(bundle, one.start..one.start, &double, &lengths);
        }
        _ => {
            let other = random.choose(&method.instructions)?;
            let inserted = copy_of(bundle, other);
            replace(bundle, one.start..one.start, &inserted, &lengths);
        }
    }
    Some(())
}

fn change_frame(bundle: &mut [u8], layout: &Layout, random: &mut Random) -> Option<()> {
    let spot = spot_of(layout, random, &[Kind::FrameByte])?;
    match (spot.width, random.below(3)) {
        (2, 0 | 1) => redirect(bundle, layout, random, spot),
        (1, 0) => {
            let tag = *random.choose(&[0, 1, 5, 6, 7, 8, 64, 248, 251, 255])?;
            write_number(bundle, spot.at, 1, tag);
            Some(())
        }
        _ => change_spot(bundle, layout, random, &[Kind::FrameByte]),
    }
}

/// Removes or doubles a frame, or drops the whole table; lengths follow.
fn resize_frames(bundle: &mut Vec<u8>, layout: &Layout, random: &mut Random) -> Option<()> {
    let with_frames = layout.methods.iter().filter(|m| m.frames.is_some());
    let method = *random.choose(&with_frames.collect::<Vec<_>>())?;
    let table = method.frames.as_ref()?;
    let frame = random.choose(&table.frames)?;
    let lengths = [method.attribute_length_at, table.attribute_length_at];
    match random.below(3) {
        0 => {
            let last = table.frames.last()?;
            let first = table.frames.first()?;
            write_number(bundle, table.count_at, 2, 0);
            replace(bundle, first.start..last.end, &[], &lengths);
        }
        1 => {
            add_to_number(bundle, table.count_at, 2, -1);
            replace(bundle, frame.clone(), &[], &lengths);
        }
        _ => {
            let double = copy_of(bundle, frame);
            add_to_number(bundle, table.count_at, 2, 1);
            replace(bundle, frame.start..frame.start, &double, &lengths);
        }
    }
    Some(())
}

fn change_pool(bundle: &mut [u8], layout: &Layout, random: &mut Random) -> Option<()> {
    match random.below(4) {
        0 => change_spot(bundle, layout, random, &[Kind::PoolTag, Kind::TextLength]),
        1 => change_spot(bundle, layout, random, &[Kind::PoolIndex]),
        _ => {
            let spot = spot_of(layout, random, &[Kind::PoolIndex])?;
            redirect(bundle, layout, random, spot)
        }
    }
}

/// Changes a byte of a text, or gives it the bytes of another of the same length.
fn change_text(bundle: &mut Vec<u8>, layout: &Layout, random: &mut Random) -> Option<()> {
    let texts = layout.pools.iter().flatten().filter(|entry| entry.tag == 1);
    let texts: Vec<_> = texts.collect();
    let text = *random.choose(&texts)?;
    if random.one_in(3) {
        let same = texts
            .iter()
            .filter(|t| t.content.len() == text.content.len());
        let other = *random.choose(&same.collect::<Vec<_>>())?;
        let bytes = copy_of(bundle, &other.content);
        replace(bundle, text.content.clone(), &bytes, &[]);
        return Some(());
    }
    let start = text.content.start + 2;
    let at = start + random.below(text.content.end.checked_sub(start)?);
    let byte = match random.one_in(4) {
        true => random.byte(),
        false => *random.choose(b"IVL;[/()<>.abAB")?,
    };
    *bundle.get_mut(at)? = byte;
    Some(())
}

fn change_own_index(bundle: &mut [u8], layout: &Layout, random: &mut Random) -> Option<()> {
    let spot = spot_of(layout, random, &[Kind::OwnIndex, Kind::AttributeName])?;
    redirect(bundle, layout, random, spot)
}

fn change_length(bundle: &mut [u8], layout: &Layout, random: &mut Random) -> Option<()> {
    let kinds = [Kind::AttributeLength, Kind::CodeLength];
    change_spot(bundle, layout, random, &kinds)
}

/// Doubles, removes or swaps members; the count follows.
fn move_member(bundle: &mut Vec<u8>, layout: &Layout, random: &mut Random) -> Option<()> {
    let member = random.choose(&layout.members)?;
    let bytes = copy_of(bundle, &member.bytes);
    match random.below(3) {
        0 => {
            add_to_number(bundle, member.count_at, 2, 1);
            replace(bundle, member.bytes.end..member.bytes.end, &bytes, &[]);
        }
        1 => {
            add_to_number(bundle, member.count_at, 2, -1);
            replace(bundle, member.bytes.clone(), &[], &[]);
        }
        _ => {
            let mut members = layout.members.iter();
            let next = members.find(|m| m.bytes.start == member.bytes.end)?;
            let mut swapped = copy_of(bundle, &next.bytes);
            swapped.extend(bytes);
            replace(bundle, member.bytes.start..next.bytes.end, &swapped, &[]);
        }
    }
    Some(())
}

/// Doubles, removes or moves classes, or adds another bundle.
fn move_class(
    bundle: &mut Vec<u8>,
    layout: &Layout,
    random: &mut Random,
    others: &[Vec<u8>],
) -> Option<()> {
    let class = random.choose(&layout.classes)?;
    let bytes = copy_of(bundle, class);
    match random.below(4) {
        0 => bundle.extend(bytes),
        1 => replace(bundle, class.clone(), &[], &[]),
        2 => {
            replace(bundle, class.clone(), &[], &[]);
            bundle.extend(bytes);
        }
        _ => bundle.extend(random.choose(others)?.iter()),
    }
    Some(())
}

/// Cuts the end off, or inserts or removes bytes anywhere.
fn cut_or_stuff(bundle: &mut Vec<u8>, random: &mut Random) -> Option<()> {
    let at = random.below(bundle.len() + 1);
    match random.below(4) {
        0 | 1 => bundle.truncate(at),
        2 => bundle.insert(at, random.byte()),
        _ => {
            let end = (at + 1 + random.below(4)).min(bundle.len());
            replace(bundle, at..end, &[], &[]);
        }
    }
    Some(())
}

fn change_byte(bundle: &mut [u8], random: &mut Random) {
    let at = random.below(bundle.len());
    let bit = 1 << random.below(8);
    if let Some(byte) = bundle.get_mut(at) {
        *byte = if random.one_in(2) {
            *byte ^ bit
        } else {
            random.byte()
        };
    }
}
