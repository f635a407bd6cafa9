// Everything from here on is appended to a copy of the original by `oracle/build`. It calls the original's
// private functions and reads and writes its private state. It computes nothing of its own, with one
// exception: sprites (command 10), which the original does not have, are drawn here.

/// A clip vertex in the order of its fields: position 4, view position 3, normal 3, colour 4, texture 2.
pub type VertexFloats = [f32; 16];

/// A light: its switch, then ambient, diffuse, specular, emission and position, three floats each.
pub type LightFloats = (bool, [f32; 15]);

fn part<const N: usize>(floats: &[f32], start: usize) -> [f32; N] {
    std::array::from_fn(|i| floats[start + i])
}

fn vertex_of(floats: &VertexFloats) -> ClipVertex {
    ClipVertex {
        position: part(floats, 0),
        view_position: part(floats, 4),
        normal: part(floats, 7),
        color: part(floats, 10),
        uv: part(floats, 14),
    }
}

fn floats_of(vertex: &ClipVertex) -> VertexFloats {
    let fields: [&[f32]; 5] =
        [&vertex.position, &vertex.view_position, &vertex.normal, &vertex.color, &vertex.uv];
    part(&fields.concat(), 0)
}

fn light_of(light: &LightFloats) -> Light {
    Light {
        enabled: light.0,
        ambient: part(&light.1, 0),
        diffuse: part(&light.1, 3),
        specular: part(&light.1, 6),
        emission: part(&light.1, 9),
        position: part(&light.1, 12),
    }
}

fn light_floats(light: &Light) -> LightFloats {
    let terms = [light.ambient, light.diffuse, light.specular, light.emission, light.position];
    (light.enabled, part(&terms.concat(), 0))
}

pub const DARK_LIGHT: LightFloats = (false, [0.0; 15]);

pub fn call_rgb555_dither(rgb: [u8; 3], x: usize, y: usize) -> [u8; 3] {
    rgb555_dither(rgb, x, y)
}

pub fn call_transform_matrix(matrix: &[f32; 16], position: [f32; 4]) -> [f32; 4] {
    transform_matrix(matrix, position)
}

pub fn call_multiply_matrix(a: &[f32; 16], b: &[f32; 16]) -> [f32; 16] {
    multiply_matrix(a, b)
}

pub fn call_inverse_transpose_3x3(matrix: &[f32; 16]) -> Option<[[f32; 3]; 3]> {
    inverse_transpose_3x3(matrix)
}

pub fn call_apply_normal_matrix(matrix: &[[f32; 3]; 3], normal: [f32; 3]) -> [f32; 3] {
    apply_normal_matrix(matrix, normal)
}

pub fn call_normalize(vector: [f32; 3]) -> [f32; 3] {
    normalize(vector)
}

pub fn call_shade_vertex(
    albedo: [f32; 4],
    position: [f32; 3],
    normal: [f32; 3],
    lights: &[LightFloats; 8],
) -> [f32; 4] {
    shade_vertex(albedo, position, normal, &std::array::from_fn(|i| light_of(&lights[i])))
}

pub fn call_clip_distance(vertex: &VertexFloats, plane: usize) -> f32 {
    clip_distance(vertex_of(vertex), plane)
}

pub fn call_clip_polygon(polygon: &[VertexFloats], plane: usize) -> Vec<VertexFloats> {
    let clipped = clip_polygon(polygon.iter().map(vertex_of).collect(), plane);
    clipped.iter().map(floats_of).collect()
}

/// The drawing functions, called directly.
impl Vpu {
    pub fn call_write_pixel(&mut self, x: usize, y: usize, rgba: [u8; 4]) {
        self.write_pixel(x, y, rgba);
    }

    pub fn call_draw_flat_triangle(&mut self, payload: &[u32; 11]) {
        self.draw_flat_triangle(payload);
    }

    pub fn call_rasterize_transformed_triangle(
        &mut self,
        corners: &[VertexFloats; 3],
        flat: Option<[f32; 4]>,
    ) {
        self.rasterize_transformed_triangle(std::array::from_fn(|i| vertex_of(&corners[i])), flat);
    }

    pub fn call_rasterize_textured_triangle(
        &mut self,
        corners: &[VertexFloats; 3],
        width: usize,
        height: usize,
        texels: &[u8],
        mode: u32,
        flat_color: [f32; 4],
    ) {
        let corners = std::array::from_fn(|i| vertex_of(&corners[i]));
        self.rasterize_textured_triangle(corners, width, height, texels, mode, flat_color);
    }
}

/// Sprites, by their rules alone: a second reading of them, beside the port's. The original refuses command 10. Of
/// the original it uses the textures that are held, and `write_pixel`, which dithers and leaves alone what is not on
/// the plane.
impl Vpu {
    /// The payload is texture number, source x, source y, width, height, target x and target y.
    pub fn draw_sprite(&mut self, p: &[u32; 7]) {
        let Some((texture_width, texture_height, texels)) = self.textures.get(&p[0]).cloned() else {
            self.status |= 1 << 3;
            return;
        };
        let (texture_width, texture_height) = (texture_width as i64, texture_height as i64);
        let (source_x, source_y) = (p[1] as i64, p[2] as i64);
        let (width, height) = (p[3] as i64, p[4] as i64);
        let (target_x, target_y) = (p[5] as i32 as i64, p[6] as i32 as i64);
        if width == 0
            || height == 0
            || source_x + width > texture_width
            || source_y + height > texture_height
            || target_x < -8192
            || target_x > 8192
            || target_y < -8192
            || target_y > 8192
        {
            self.status |= 1 << 3;
            return;
        }
        for r in 0..height {
            for c in 0..width {
                let at = 4 * ((source_y + r) * texture_width + source_x + c) as usize;
                let texel = [texels[at], texels[at + 1], texels[at + 2], texels[at + 3]];
                let (x, y) = (target_x + c, target_y + r);
                if texel[3] > 0 && x >= 0 && y >= 0 {
                    self.write_pixel(x as usize, y as usize, texel);
                }
            }
        }
    }

    /// The payload of a sprite, if this word is the last of seven. With another length it is the original's to refuse.
    fn sprite_ended_by(&self, word: u32) -> Option<[u32; 7]> {
        if self.expected != Some(1) || self.command[0] != 0x10 {
            return None;
        }
        [&self.command[1..], &[word]].concat().try_into().ok()
    }
}

/// Feeding, and what can be seen afterwards.
impl Vpu {
    pub fn feed(&mut self, words: &[u32]) {
        for word in words {
            match self.sprite_ended_by(*word) {
                Some(payload) => {
                    self.draw_sprite(&payload);
                    self.expected = None;
                    self.command.clear();
                }
                None => self.feed_without_sprites(&[*word]),
            }
        }
    }

    /// The original alone, which refuses every command 10. What is timed does not look for sprites.
    #[inline(never)]
    pub fn feed_without_sprites(&mut self, words: &[u32]) {
        for word in words {
            self.push(*word);
        }
    }

    pub fn status(&self) -> u32 {
        self.status
    }

    pub fn plane(&self) -> &[u8] {
        &self.plane
    }

    pub fn depth(&self) -> &[i32] {
        &self.depth
    }

    pub fn depth_f32(&self) -> &[f32] {
        &self.depth_f32
    }

    /// Opcode, payload words gathered and payload words still wanted of a command that is begun.
    pub fn begun(&self) -> Option<(u8, usize, usize)> {
        self.expected.map(|wanted| (self.command[0] as u8, self.command.len() - 1, wanted))
    }

    /// The payload words of the begun command so far.
    pub fn gathered(&self) -> &[u32] {
        self.command.get(1..).unwrap_or(&[])
    }

    pub fn matrix(&self, index: usize) -> [f32; 16] {
        self.matrices[index]
    }

    pub fn shading_mode(&self) -> u32 {
        self.shading_mode
    }

    pub fn lighting_enabled(&self) -> bool {
        self.lighting_enabled
    }

    pub fn light(&self, index: usize) -> LightFloats {
        light_floats(&self.lights[index])
    }

    /// Width, height and texels, four bytes each.
    pub fn texture(&self, number: u32) -> Option<(usize, usize, &[u8])> {
        self.textures.get(&number).map(|(width, height, texels)| (*width, *height, &texels[..]))
    }

    pub fn model(&self, number: u32) -> Option<&[u32]> {
        self.models.get(&number).map(|words| &words[..])
    }

    pub fn texture_numbers(&self) -> Vec<u32> {
        let mut numbers: Vec<u32> = self.textures.keys().copied().collect();
        numbers.sort();
        numbers
    }

    pub fn model_numbers(&self) -> Vec<u32> {
        let mut numbers: Vec<u32> = self.models.keys().copied().collect();
        numbers.sort();
        numbers
    }
}

/// Putting a machine into a given state.
impl Vpu {
    pub fn set_status(&mut self, status: u32) {
        self.status = status;
    }

    pub fn plane_mut(&mut self) -> &mut [u8] {
        &mut self.plane
    }

    pub fn depth_mut(&mut self) -> &mut [i32] {
        &mut self.depth
    }

    pub fn depth_f32_mut(&mut self) -> &mut [f32] {
        &mut self.depth_f32
    }

    pub fn set_matrix(&mut self, index: usize, matrix: [f32; 16]) {
        self.matrices[index] = matrix;
    }

    pub fn set_shading_mode(&mut self, mode: u32) {
        self.shading_mode = mode;
    }

    pub fn set_lighting_enabled(&mut self, enabled: bool) {
        self.lighting_enabled = enabled;
    }

    pub fn set_light(&mut self, index: usize, light: &LightFloats) {
        self.lights[index] = light_of(light);
    }
}
