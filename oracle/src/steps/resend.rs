//! Stores filled to the last word, and uploads sent again: a portrait that is replaced before the next match.

use crate::maker::Maker;
use crate::streams::Command;

/// Words of either store: 73 triangles fill it too.
pub const ROOM: u32 = 28 * 73;

#[derive(Clone, Copy)]
enum Kind {
    Texture,
    Model,
}

impl Kind {
    /// An upload of so many words, with an even or an odd number of texels, or of so many triangles.
    fn command(self, maker: &mut Maker, number: u32, size: u32) -> Command {
        match self {
            Kind::Texture if maker.random.chance(50) => maker.texture(number, 1, 2 * size - 1),
            Kind::Texture => maker.texture(number, 2, size),
            Kind::Model => maker.model(number, size),
        }
    }

    /// The largest upload that is sent.
    fn most(self) -> u32 {
        match self {
            Kind::Texture => 512,
            Kind::Model => 24,
        }
    }
}

/// What a store holds: each number with its size, in words of a texture or in triangles of a model.
struct Shelf {
    kind: Kind,
    room: u32,
    held: Vec<(u32, u32)>,
}

impl Shelf {
    /// What is left beside the other numbers.
    fn free(&self, number: u32) -> u32 {
        self.room - self.held.iter().filter(|held| held.0 != number).map(|held| held.1).sum::<u32>()
    }

    fn send(&mut self, maker: &mut Maker, number: u32, size: u32) {
        let command = self.kind.command(maker, number, size);
        maker.send(command);
        let numbers = match self.kind {
            Kind::Texture => &mut maker.textures,
            Kind::Model => &mut maker.models,
        };
        if self.held.iter().all(|held| held.0 != number) {
            numbers.push(number);
        }
        self.held.retain(|held| held.0 != number);
        self.held.push((number, size));
    }

    /// Numbers at random, until nothing is left.
    fn fill(&mut self, maker: &mut Maker) {
        let most = self.kind.most();
        loop {
            let number = maker.random.word();
            let free = self.free(number);
            if free == 0 {
                return;
            }
            let size = most / 8 + maker.random.below(most / 2);
            self.send(maker, number, size.min(free));
        }
    }

    /// One of the numbers again, mostly as large as there is room, else as before or smaller.
    fn again(&mut self, maker: &mut Maker) -> u32 {
        let (number, old) = maker.random.pick(&self.held);
        let free = self.free(number);
        let size = match maker.random.below(6) {
            0 => 1 + maker.random.below(free),
            1 => old,
            _ => free,
        };
        self.send(maker, number, size.min(self.kind.most()));
        number
    }

    /// A number, held or new, with one word or one triangle more than there is room for.
    fn too_large(&self, maker: &mut Maker) {
        let held = maker.random.pick(&self.held).0;
        let number = if maker.random.chance(75) { held } else { maker.random.word() };
        let size = self.free(number) + 1;
        if size <= self.kind.most() {
            let command = self.kind.command(maker, number, size);
            maker.send(command);
        }
    }
}

fn stream(maker: &mut Maker, beyond: bool) {
    let shelf = |kind, unit| Shelf { kind, room: ROOM / unit, held: Vec::new() };
    let (mut textures, mut models) = (shelf(Kind::Texture, 1), shelf(Kind::Model, 28));
    textures.fill(maker);
    models.fill(maker);
    for _ in 0..10 {
        let (texture, model) = (textures.again(maker), models.again(maker));
        if beyond && maker.random.chance(50) {
            textures.too_large(maker);
            models.too_large(maker);
        }
        maker.refresh();
        let (triangle, mode) = (maker.triangle_of_size(0.7), maker.mode());
        maker.send(Command::textured(texture, mode, &triangle));
        maker.send(Command::draw_model(model, mode));
    }
}

pub fn resend(maker: &mut Maker) {
    stream(maker, false);
}

/// Some uploads lack one word, or the words of one triangle, and are refused.
pub fn overfull(maker: &mut Maker) {
    stream(maker, true);
}
