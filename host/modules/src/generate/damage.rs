//! Damaged files: bytes flipped, cut short, added or moved.

// All have the type `Damage`, though some need no more than a slice.
#![allow(clippy::ptr_arg)]

use crate::random::Random;

type Damage = fn(&mut Random, &mut Vec<u8>);

const DAMAGES: &[Damage] = &[
    flip_bits,
    flip_bits,
    random_bytes_inside,
    cut,
    cut_near_header,
    extend,
    extend,
    header_byte,
    header_byte,
    length_aside,
    length_aside,
    field_length,
    count_out_of_range,
    swap_fields,
    swap_stretches,
    repeat_field,
    all_random,
];

pub fn damage(random: &mut Random, file: &mut Vec<u8>) {
    let times = if random.chance(85) { 1 } else { 2 };
    for _ in 0..times {
        random.pick(DAMAGES)(random, file);
    }
}

/// Where the three fields of a file begin that was whole, and where it ends; cut to the file there is.
fn bounds(file: &[u8]) -> [usize; 4] {
    let mut bounds = [0; 4];
    for field in 0..3 {
        let start = bounds[field];
        let byte = |at: usize| file.get(start + at).copied().unwrap_or(0);
        let length = usize::from(u16::from_le_bytes([byte(1), byte(2)]));
        bounds[field + 1] = (start + 3 + length).min(file.len());
    }
    bounds
}

fn flip_bits(random: &mut Random, file: &mut Vec<u8>) {
    for _ in 0..1 + random.below(3) {
        if !file.is_empty() {
            let at = random.below(file.len());
            file[at] ^= 1 << random.below(8);
        }
    }
}

fn random_bytes_inside(random: &mut Random, file: &mut Vec<u8>) {
    if !file.is_empty() {
        let start = random.below(file.len());
        let end = (start + 1 + random.below(8)).min(file.len());
        file[start..end].fill_with(|| random.byte());
    }
}

fn cut(random: &mut Random, file: &mut Vec<u8>) {
    file.truncate(random.below(file.len() + 1));
}

fn cut_near_header(random: &mut Random, file: &mut Vec<u8>) {
    let bound = random.pick(&bounds(file));
    file.truncate((bound + random.below(5)).saturating_sub(1));
}

fn extend(random: &mut Random, file: &mut Vec<u8>) {
    let length = random.pick(&[1, 1, 2, 3, 8, 68, 70_000]);
    let zero = random.chance(50);
    let filled = file.len() + length;
    file.resize_with(filled, || if zero { 0 } else { random.byte() });
}

fn header_byte(random: &mut Random, file: &mut Vec<u8>) {
    let at = random.pick(&bounds(file)[..3]) + random.below(3);
    let value = random.pick(&[0, 1, 2, 3, 4, 12, 128, 255]);
    if let Some(byte) = file.get_mut(at) {
        *byte = value;
    }
}

fn put_length(file: &mut [u8], start: usize, length: u16) {
    if let Some(bytes) = file.get_mut(start + 1..start + 3) {
        bytes.copy_from_slice(&length.to_le_bytes());
    }
}

/// A field's length changes and its bytes stay.
fn length_aside(random: &mut Random, file: &mut Vec<u8>) {
    let bounds = bounds(file);
    let field = random.below(3);
    let length = (bounds[field + 1] - bounds[field]).saturating_sub(3) as u16;
    let distance = random.pick(&[-68, -8, -1, 1, 8, 68]);
    put_length(file, bounds[field], length.wrapping_add_signed(distance));
}

/// A field's length becomes another, also one that is never listed.
fn field_length(random: &mut Random, file: &mut Vec<u8>) {
    let start = random.pick(&bounds(file)[..3]);
    let length = random.pick(&[0, 8, 12, 68, 32_768, 32_776, 17_408, 17_476, 65_528, 65_535]);
    put_length(file, start, length);
}

/// Bytes are put in or taken out, and the length says so: one instruction or target too many, or none at all.
fn count_out_of_range(random: &mut Random, file: &mut Vec<u8>) {
    let bounds = bounds(file);
    let field = random.below(3);
    let length = match field {
        0 => random.pick(&[0, 11, 13, 24]),
        1 => random.pick(&[0, 7, 32_775, 32_776]),
        _ => random.pick(&[0, 67, 17_475, 17_476]),
    };
    let value = (bounds[field] + 3).min(file.len());
    let end = bounds[field + 1].max(value);
    let mut bytes = file[value..end].to_vec();
    bytes.resize(length, 0);
    file.splice(value..end, bytes);
    put_length(file, bounds[field], length as u16);
}

fn swap_fields(random: &mut Random, file: &mut Vec<u8>) {
    let bounds = bounds(file);
    let first = random.below(2);
    let length = bounds[first + 1] - bounds[first];
    file[bounds[first]..bounds[first + 2]].rotate_left(length);
}

fn swap_stretches(random: &mut Random, file: &mut Vec<u8>) {
    let length = random.pick(&[1, 2, 4, 8, 68]);
    if file.len() >= 2 * length {
        let start = random.below(file.len() - 2 * length + 1);
        file[start..start + 2 * length].rotate_left(length);
    }
}

fn repeat_field(random: &mut Random, file: &mut Vec<u8>) {
    let bounds = bounds(file);
    let field = random.below(3);
    let copied = file[bounds[field]..bounds[field + 1]].to_vec();
    file.splice(bounds[field]..bounds[field], copied);
}

fn all_random(random: &mut Random, file: &mut Vec<u8>) {
    let length = random.below(200);
    file.clear();
    file.resize_with(length, || random.byte());
    if random.chance(50) && length > 3 {
        file[..3].copy_from_slice(&[1, 12, 0]);
    }
}
