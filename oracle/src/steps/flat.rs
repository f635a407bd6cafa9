//! Flat triangles.

use crate::maker::Maker;

pub fn flat(maker: &mut Maker) {
    let size = maker.random.pick(&[1, 3, 12, 12, 40, 40, 100, 100, 600]);
    let mut command = maker.flat_around(size);
    if maker.random.chance(8) {
        // Two corners on one spot: no area.
        command.payload.copy_within(0..2, 3);
    }
    maker.send(command);
    if maker.random.chance(12) {
        maker.refresh();
    }
}

/// Corners of a flat triangle that leaves the screen on one side, or lies wholly outside.
pub fn flat_sides(maker: &mut Maker) {
    let far = maker.random.pick(&[1, 20, 300, 8192 - 320]);
    let outside = if maker.random.chance(12) { 3 } else { 1 + maker.random.below(2) };
    let side = maker.random.below(4);
    let corners = std::array::from_fn(|i| {
        let mut corner = [maker.random.between(0, 319), maker.random.between(0, 239)];
        if (i as u32) < outside {
            let by = 1 + maker.random.below(far) as i32;
            let place = if maker.random.chance(8) {
                [-8192, 8192, -8192, 8192]
            } else {
                [-by, 319 + by, -by, 239 + by]
            };
            corner[side as usize / 2] = place[side as usize];
        }
        corner
    });
    let command = maker.flat(corners);
    maker.send(command);
    if maker.random.chance(15) {
        maker.refresh();
    }
}

pub fn flat_beyond(maker: &mut Maker) {
    let far = [8192, -8192, 8193, -8193, 20_000, -70_000, i32::MAX, i32::MIN];
    let mut corners =
        std::array::from_fn(|_| [maker.random.between(-40, 360), maker.random.between(-40, 280)]);
    for _ in 0..1 + maker.random.below(2) {
        let place = maker.random.below(6) as usize;
        corners[place / 2][place % 2] = maker.random.pick(&far);
    }
    let command = maker.flat(corners);
    maker.send(command);
    if maker.random.chance(15) {
        maker.refresh();
    }
}
