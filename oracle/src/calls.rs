//! The original's functions as words in and words out, in the layouts of `single`.

use crate::digests::bits;
use crate::original::*;

/// An answer without words is the answer "none".
pub type Call = fn(&[u32]) -> Result<Vec<u32>, String>;

const CALLS: [(&str, Call); 10] = [
    ("dither", dither),
    ("transform", transform),
    ("multiply", multiply),
    ("inverse", inverse),
    ("apply", apply),
    ("normalize", normalize),
    ("shade", shade),
    ("distance", distance),
    ("clip", clip),
    ("clip_all", clip_all),
];

pub fn call_named(name: &str) -> Result<Call, String> {
    let found = CALLS.iter().find(|(known, _)| *known == name);
    found.map(|(_, call)| *call).ok_or(format!("no function {name:?}"))
}

fn expect(words: &[u32], count: usize) -> Result<(), String> {
    if words.len() == count {
        Ok(())
    } else {
        Err(format!("{count} words wanted, {} given", words.len()))
    }
}

fn floats<const N: usize>(words: &[u32], start: usize) -> [f32; N] {
    std::array::from_fn(|i| f32::from_bits(words[start + i]))
}

fn words_of(floats: &[f32]) -> Vec<u32> {
    floats.iter().map(|float| bits(*float)).collect()
}

fn plane_number(word: u32) -> Result<usize, String> {
    if word < 6 {
        Ok(word as usize)
    } else {
        Err(format!("no plane {word}"))
    }
}

fn dither(words: &[u32]) -> Result<Vec<u32>, String> {
    expect(words, 5)?;
    if words[..3].iter().any(|channel| *channel > 255) {
        return Err("a channel is over ff".to_string());
    }
    let rgb = [words[0] as u8, words[1] as u8, words[2] as u8];
    let dithered = call_rgb555_dither(rgb, words[3] as usize, words[4] as usize);
    Ok(dithered.map(u32::from).to_vec())
}

fn transform(words: &[u32]) -> Result<Vec<u32>, String> {
    expect(words, 20)?;
    Ok(words_of(&call_transform_matrix(&floats(words, 0), floats(words, 16))))
}

fn multiply(words: &[u32]) -> Result<Vec<u32>, String> {
    expect(words, 32)?;
    Ok(words_of(&call_multiply_matrix(&floats(words, 0), &floats(words, 16))))
}

fn inverse(words: &[u32]) -> Result<Vec<u32>, String> {
    expect(words, 16)?;
    let rows = call_inverse_transpose_3x3(&floats(words, 0));
    Ok(rows.map_or(Vec::new(), |rows| words_of(&rows.concat())))
}

fn apply(words: &[u32]) -> Result<Vec<u32>, String> {
    expect(words, 12)?;
    let rows = [floats(words, 0), floats(words, 3), floats(words, 6)];
    Ok(words_of(&call_apply_normal_matrix(&rows, floats(words, 9))))
}

fn normalize(words: &[u32]) -> Result<Vec<u32>, String> {
    expect(words, 3)?;
    Ok(words_of(&call_normalize(floats(words, 0))))
}

fn shade(words: &[u32]) -> Result<Vec<u32>, String> {
    let given = words.len().saturating_sub(10) / 16;
    expect(words, 10 + 16 * given.min(8))?;
    let mut lights = [DARK_LIGHT; 8];
    for (index, light) in lights.iter_mut().enumerate().take(given) {
        let start = 10 + 16 * index;
        *light = (words[start] != 0, floats(words, start + 1));
    }
    Ok(words_of(&call_shade_vertex(floats(words, 0), floats(words, 4), floats(words, 7), &lights)))
}

fn distance(words: &[u32]) -> Result<Vec<u32>, String> {
    expect(words, 5)?;
    let mut vertex = [0.0; 16];
    vertex[..4].copy_from_slice(&floats::<4>(words, 1));
    Ok(words_of(&[call_clip_distance(&vertex, plane_number(words[0])?)]))
}

fn vertices(words: &[u32]) -> Result<Vec<VertexFloats>, String> {
    let corners = words.len() / 16;
    expect(words, 16 * corners)?;
    Ok((0..corners).map(|i| floats(words, 16 * i)).collect())
}

fn counted(polygon: &[VertexFloats]) -> Vec<u32> {
    let mut answer = vec![polygon.len() as u32];
    answer.extend(words_of(&polygon.concat()));
    answer
}

fn clip(words: &[u32]) -> Result<Vec<u32>, String> {
    let (plane, rest) = words.split_first().ok_or("no plane given")?;
    Ok(counted(&call_clip_polygon(&vertices(rest)?, plane_number(*plane)?)))
}

/// The original has this loop inside its draws, and ends the draw as soon as two vertices or fewer are left.
fn clip_all(words: &[u32]) -> Result<Vec<u32>, String> {
    expect(words, 48)?;
    let mut polygon = vertices(words)?;
    for plane in 0..6 {
        polygon = call_clip_polygon(&polygon, plane);
        if polygon.len() < 3 {
            return Ok(counted(&[]));
        }
    }
    Ok(counted(&polygon))
}
