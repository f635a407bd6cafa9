#!/usr/bin/env python3
"""The float arithmetic of the VPU over whole numbers, from IEEE 754-2019.

A value is its binary32 pattern. Rounding is to nearest, ties to even, and every NaN is 7fc00000.
No result passes through a float of this machine. Names and order of operations are the original's.

    floats.py FUNCTION < LINES     a line of hexadecimal words in, a line out; see LAYOUTS
    floats.py --self               checks itself against known values
    floats.py list [--seed S] [--count N] [--stdin FILE] [--stdout FILE]
                                   the patterns that the program ieee_test replays, and what it has to print
"""
import sys
from collections import namedtuple
from math import isqrt

NAN, INF, SIGN = 0x7FC00000, 0x7F800000, 0x80000000
ZERO, HALF, ONE = 0x00000000, 0x3F000000, 0x3F800000
EPSILON = 0x34000000  # 2^-23
WIDTH, HEIGHT = 320, 240

# ---- Patterns and numbers


def is_nan(x):
    return x & 0x7FFFFFFF > INF


def is_inf(x):
    return x & 0x7FFFFFFF == INF


def is_zero(x):
    return x & 0x7FFFFFFF == 0


def is_finite(x):
    return x & 0x7FFFFFFF < INF


def negative(x):
    return x >> 31 == 1


def canonical(x):
    return NAN if is_nan(x) else x


def decode(x):
    """A finite x as (m, e): x is m·2^e, and m has x's sign."""
    field, m = x >> 23 & 0xFF, x & 0x7FFFFF
    if field > 0:
        m, field = m + 0x800000, field - 1
    return (-m if negative(x) else m), field - 149


def encode(sign, m, e, rest=False):
    """What is nearest to m·2^e, for m >= 0; with rest, to a number between that and (m+1)·2^e."""
    if rest:
        assert m >= 1 << 25, "a tie has to be told from what is beside it"
        m, e = m * 2 + 1, e - 1
    unit = max(m.bit_length() + e - 24, -149)
    if unit <= e:
        digits = m << (e - unit)
    else:
        digits = m >> (unit - e)
        left, tie = m - (digits << (unit - e)), 1 << (unit - e - 1)
        if left > tie or (left == tie and digits % 2 == 1):
            digits += 1
    # The leading digit adds 1 to the exponent field; a sum that carries adds 1 more.
    x = digits if digits < 0x800000 else ((unit + 149) << 23) + digits
    return min(x, INF) | (SIGN if sign else 0)


def from_int(n):
    return encode(n < 0, abs(n), 0)


# ---- The operations of section 5 of the standard


def neg(x):
    return NAN if is_nan(x) else x ^ SIGN


def abs_(x):
    return NAN if is_nan(x) else x & 0x7FFFFFFF


def add(x, y):
    if is_nan(x) or is_nan(y) or (is_inf(x) and is_inf(y) and x != y):
        return NAN
    if is_inf(x) or is_inf(y):
        return x if is_inf(x) else y
    (m, e), (n, f) = decode(x), decode(y)
    least = min(e, f)
    total = (m << (e - least)) + (n << (f - least))
    if total == 0:
        return SIGN if negative(x) and negative(y) else ZERO
    return encode(total < 0, abs(total), least)


def sub(x, y):
    return add(x, neg(y))


def mul(x, y):
    sign = negative(x) != negative(y)
    if is_nan(x) or is_nan(y) or (is_inf(x) and is_zero(y)) or (is_zero(x) and is_inf(y)):
        return NAN
    if is_inf(x) or is_inf(y):
        return INF | (SIGN if sign else 0)
    (m, e), (n, f) = decode(x), decode(y)
    return encode(sign, abs(m * n), e + f)


def div(x, y):
    sign = negative(x) != negative(y)
    if is_nan(x) or is_nan(y) or (is_inf(x) and is_inf(y)) or (is_zero(x) and is_zero(y)):
        return NAN
    if is_inf(x) or is_zero(y):
        return INF | (SIGN if sign else 0)
    if is_zero(x) or is_inf(y):
        return SIGN if sign else ZERO
    (m, e), (n, f) = decode(x), decode(y)
    quotient, rest = divmod(abs(m) << 50, abs(n))
    return encode(sign, quotient, e - f - 50, rest > 0)


def sqrt(x):
    if is_nan(x) or (negative(x) and not is_zero(x)):
        return NAN
    if is_zero(x) or is_inf(x):
        return x
    m, e = decode(x)
    m, e = m << (52 + e % 2), e - e % 2 - 52
    root = isqrt(m)
    return encode(False, root, e // 2, root * root < m)


def order(x):
    """A whole number, in the same order as the values; both zeros are 0."""
    return -(x & 0x7FFFFFFF) if negative(x) else x


def lt(x, y):
    return not (is_nan(x) or is_nan(y)) and order(x) < order(y)


def le(x, y):
    return not (is_nan(x) or is_nan(y)) and order(x) <= order(y)


def eq(x, y):
    return not (is_nan(x) or is_nan(y)) and order(x) == order(y)


# ---- Rust's clamp, maximum and casts


def clamp01(x):
    if lt(x, ZERO):
        return ZERO
    return ONE if lt(ONE, x) else canonical(x)


def max0(x):
    return x if lt(ZERO, x) else ZERO


def tiny(x):
    return le(abs_(x), EPSILON)


def saturated(x, least, greatest, whole):
    """x made whole and brought into the range; NaN gives 0."""
    if is_nan(x):
        return 0
    if is_inf(x):
        return least if negative(x) else greatest
    return min(max(whole(*decode(x)), least), greatest)


def down(m, e):
    return m << e if e >= 0 else m >> -e


def up(m, e):
    return -down(-m, e)


def towards_zero(m, e):
    return down(m, e) if m >= 0 else up(m, e)


def floor_i32(x):
    return saturated(x, -(2**31), 2**31 - 1, down)


def ceil_i32(x):
    return saturated(x, -(2**31), 2**31 - 1, up)


def byte(x):
    return saturated(x, 0, 255, towards_zero)


def unit_byte(v):
    return byte(add(mul(v, from_int(255)), HALF))


def texel(u, side):
    return saturated(mul(u, from_int(side)), 0, side - 1, down)


def first(x):
    return max(floor_i32(x), 0)


def past(x):
    return max(ceil_i32(x) + 1, 0)


# ---- Vectors and matrices


def summed(terms):
    """Left to right from the first term, as from -0.0."""
    total = terms[0]
    for term in terms[1:]:
        total = add(total, term)
    return total


def dot(a, b):
    return summed([mul(x, y) for x, y in zip(a, b)])


def normalize(vector):
    length = sqrt(dot(vector, vector))
    if is_finite(length) and lt(EPSILON, length):
        return [div(value, length) for value in vector]
    return [ZERO, ZERO, ONE]


def transform_matrix(matrix, position):
    return [dot(matrix[row * 4 : row * 4 + 4], position) for row in range(4)]


def multiply_matrix(a, b):
    return [dot(a[row * 4 : row * 4 + 4], b[col::4]) for row in range(4) for col in range(4)]


def cross_term(a, b, c, d):
    return sub(mul(a, b), mul(c, d))


def inverse_transpose_3x3(matrix):
    (a, b, c), (d, e, f), (g, h, i) = matrix[0:3], matrix[4:7], matrix[8:11]
    det = add(
        sub(mul(a, cross_term(e, i, f, h)), mul(b, cross_term(d, i, f, g))),
        mul(c, cross_term(d, h, e, g)),
    )
    if not is_finite(det) or tiny(det):
        return None
    inv_det = div(ONE, det)
    inverse = [
        [(e, i, f, h), (c, h, b, i), (b, f, c, e)],
        [(f, g, d, i), (a, i, c, g), (c, d, a, f)],
        [(d, h, e, g), (b, g, a, h), (a, e, b, d)],
    ]
    return [[mul(cross_term(*inverse[col][row]), inv_det) for col in range(3)] for row in range(3)]


def apply_normal_matrix(matrix, normal):
    return [dot(row, normal) for row in matrix]


# ---- Lights

Light = namedtuple("Light", "enabled ambient diffuse specular emission position")


def powi16(x):
    for _ in range(4):
        x = mul(x, x)
    return x


def lit(light, albedo, position, normal, view):
    """What one light adds to each channel."""
    to_light = normalize([sub(p, q) for p, q in zip(light.position, position)])
    ndotl = max0(dot(normal, to_light))
    half_vector = normalize([add(p, q) for p, q in zip(to_light, view)])
    ndoth = max0(dot(normal, half_vector))
    specular = powi16(ndoth) if lt(ZERO, ndotl) else ZERO
    return [
        summed(
            [
                mul(albedo[c], light.ambient[c]),
                mul(mul(albedo[c], light.diffuse[c]), ndotl),
                mul(light.specular[c], specular),
                canonical(light.emission[c]),
            ]
        )
        for c in range(3)
    ]


def shade_vertex(albedo, position, normal, lights):
    view = normalize([neg(p) for p in position])
    rgb = [ZERO, ZERO, ZERO]
    for light in lights:
        if light.enabled:
            rgb = [add(p, q) for p, q in zip(rgb, lit(light, albedo, position, normal, view))]
    return rgb + [canonical(albedo[3])]


# ---- Clipping

ClipVertex = namedtuple("ClipVertex", "position view_position normal color uv")


def clip_distance(position, plane):
    x, y, z, w = position
    if plane == 4:
        return canonical(z)
    return [add(x, w), sub(w, x), add(y, w), sub(w, y), z, sub(w, z)][min(plane, 5)]


def between(previous, current, t):
    return [add(p, mul(t, sub(q, p))) for p, q in zip(previous, current)]


def crossing(previous, current, t):
    fields = [between(p, q, t) for p, q in zip(previous, current)]
    return ClipVertex(*fields)._replace(normal=normalize(fields[2]))


def clip_polygon(polygon, plane):
    output = []
    for previous, current in zip(polygon[-1:] + polygon[:-1], polygon):
        before = clip_distance(previous.position, plane)
        here = clip_distance(current.position, plane)
        if le(ZERO, before) != le(ZERO, here):
            output.append(crossing(previous, current, div(before, sub(before, here))))
        if le(ZERO, here):
            output.append(current)
    return output


# ---- One pixel of the two float rasterisers, before dither

Setup = namedtuple("Setup", "screen inv_w depth area")


def scale_once(x, pixels):
    return mul(x, mul(from_int(pixels), HALF))


def scale_twice(x, pixels):
    return mul(mul(x, from_int(pixels)), HALF)


def edge(screen, a, b, x, y):
    return sub(
        mul(sub(x, screen[a][0]), sub(screen[b][1], screen[a][1])),
        mul(sub(y, screen[a][1]), sub(screen[b][0], screen[a][0])),
    )


def setup(tri, scale):
    if any(le(v.position[3], EPSILON) for v in tri):
        return None
    inv_w = [div(ONE, v.position[3]) for v in tri]
    screen = [
        (
            scale(add(mul(v.position[0], i), ONE), WIDTH),
            scale(sub(ONE, mul(v.position[1], i)), HEIGHT),
        )
        for v, i in zip(tri, inv_w)
    ]
    depth = [mul(v.position[2], i) for v, i in zip(tri, inv_w)]
    area = edge(screen, 0, 1, *screen[2])
    return None if tiny(area) else Setup(screen, inv_w, depth, area)


def in_box(screen, axis, at, size):
    low = max(min(floor_i32(p[axis]) for p in screen), 0)
    high = min(max(ceil_i32(p[axis]) for p in screen), size - 1)
    return low <= at <= high


def bary_at(s, x, y):
    """The three weights divided by the area, or None if the pixel is not covered."""
    if not (in_box(s.screen, 0, x, WIDTH) and in_box(s.screen, 1, y, HEIGHT)):
        return None
    px, py = add(from_int(x), HALF), add(from_int(y), HALF)
    weights = [edge(s.screen, a, b, px, py) for a, b in ((1, 2), (2, 0), (0, 1))]
    positive = lt(ZERO, s.area)
    if not all(le(ZERO, w) if positive else le(w, ZERO) for w in weights):
        return None
    return [div(w, s.area) for w in weights]


def depth_at(s, bary, old):
    """The pixel's depth, or None if it does not replace the old one. NaN does."""
    z = dot(bary, s.depth)
    return None if lt(z, ZERO) or lt(ONE, z) or le(old, z) else z


def covered(tri, scale, x, y, old):
    """Setup, weights and depth at a pixel that passes, else None."""
    s = setup(tri, scale)
    bary = s and bary_at(s, x, y)
    z = bary and depth_at(s, bary, old)
    return None if z is None else (s, bary, z)


def color_bytes(color):
    return [unit_byte(clamp01(value)) for value in color]


def rasterize_transformed_triangle(tri, flat, x, y, old):
    """None, or the depth stored and the four bytes written, which are None if only the depth is stored."""
    hit = covered(tri, scale_once, x, y, old)
    if hit is None:
        return None
    s, bary, z = hit
    if flat is not None:
        return z, color_bytes(flat)
    denominator = dot(bary, s.inv_w)
    if tiny(denominator):
        return z, None
    color = [
        div(summed([mul(mul(bary[i], tri[i].color[c]), s.inv_w[i]) for i in range(3)]), denominator)
        for c in range(4)
    ]
    return z, color_bytes(color)


def texel_bytes(texture, width, tx, ty):
    """RGBA4444, two to a word, the high half first."""
    index = ty * width + tx
    half = texture[index // 2] >> (0 if index % 2 else 16) & 0xFFFF
    return [(half >> shift & 15) * 17 for shift in (12, 8, 4, 0)]


def rasterize_textured_triangle(tri, texture, width, height, mode, flat_color, x, y, old):
    hit = covered(tri, scale_twice, x, y, old)
    if hit is None:
        return None
    _, b, z = hit
    u, v = [dot(b, [vertex.uv[c] for vertex in tri]) for c in range(2)]
    color = flat_color
    if mode != 1:
        color = [clamp01(dot(b, [vertex.color[c] for vertex in tri])) for c in range(4)]
    texels = texel_bytes(texture, width, texel(u, width), texel(v, height))
    values = [div(from_int(t), from_int(255)) for t in texels]
    return z, color_bytes(values if mode == 0 else [mul(t, c) for t, c in zip(values, color)])


# ---- The command line

LAYOUTS = """
add sub mul div lt le eq: two words -> one          texel: u and the side -> one
from_int: an unsigned number -> one                 every other scalar function: one word -> one
transform: matrix 16, position 4 -> 4               multiply: 16, 16 -> 16
inverse: 16 -> 9, row by row, or none               apply: 9, 3 -> 3
normalize: 3 -> 3                                   distance: plane, position 4 -> 1
shade: albedo 4, position 3, normal 3, 8 lights of 16 (switch, ambient, diffuse, specular, emission, position) -> 4
clip: plane, vertices of 16 (position 4, view 3, normal 3, color 4, uv 2) -> count, vertices
transformed: 3 vertices, flat 0/1, flat color 4, x, y, old depth -> none, or the depth, or the depth and 4 bytes
textured: 3 vertices, mode, flat color 4, width, height, x, y, old depth, the texture's words -> the same
"""

SCALARS = {
    "add": add, "sub": sub, "mul": mul, "div": div, "sqrt": sqrt, "neg": neg, "lt": lt, "le": le, "eq": eq,
    "is_finite": is_finite, "clamp01": clamp01, "max0": max0, "abs": abs_, "tiny": tiny, "floor_i32": floor_i32,
    "ceil_i32": ceil_i32, "byte": byte, "unit_byte": unit_byte, "texel": texel, "from_int": from_int,
    "first": first, "past": past, "float_of": canonical,
}  # fmt: skip


def parts(words, sizes):
    """The words cut into pieces of these sizes, one after another."""
    out, at = [], 0
    for size in sizes:
        out.append(words[at : at + size])
        at += size
    return out


def light_of(w):
    return Light(w[0] != 0, *parts(w[1:], [3] * 5))


def vertices_of(words):
    return [ClipVertex(*parts(words[at : at + 16], [4, 3, 3, 4, 2])) for at in range(0, len(words), 16)]


def words_of(vertices):
    return [canonical(word) for vertex in vertices for field in vertex for word in field]


def shade(w):
    return shade_vertex(w[0:4], w[4:7], w[7:10], [light_of(w[at : at + 16]) for at in range(10, 138, 16)])


def clip(w):
    out = clip_polygon(vertices_of(w[1:]), w[0])
    return [len(out)] + words_of(out)


def inverse(w):
    matrix = inverse_transpose_3x3(w)
    return None if matrix is None else sum(matrix, [])


def pixel(hit):
    return None if hit is None else [hit[0]] + (hit[1] or [])


def transformed(w):
    return pixel(rasterize_transformed_triangle(vertices_of(w[:48]), w[49:53] if w[48] else None, *w[53:56]))


def textured(w):
    mode, (width, height, x, y, old) = w[48], w[53:58]
    return pixel(
        rasterize_textured_triangle(vertices_of(w[:48]), w[58:], width, height, mode, w[49:53], x, y, old)
    )


GROUPS = {
    "transform": lambda w: transform_matrix(w[:16], w[16:20]),
    "multiply": lambda w: multiply_matrix(w[:16], w[16:32]),
    "inverse": inverse,
    "apply": lambda w: apply_normal_matrix(parts(w, [3, 3, 3]), w[9:12]),
    "normalize": normalize,
    "shade": shade,
    "distance": lambda w: [clip_distance(w[1:5], w[0])],
    "clip": clip,
    "transformed": transformed,
    "textured": textured,
}


def answer(name, words):
    result = [SCALARS[name](*words)] if name in SCALARS else GROUPS[name](words)
    if result is None:
        return "none"
    return " ".join("%08x" % (int(word) & 0xFFFFFFFF) for word in result)


# ---- The fixed list


def neighbours(x, reach):
    return [y for y in range(x - reach, x + reach + 1) if 0 <= y <= 0xFFFFFFFF]


def both_signs(patterns):
    return [x ^ sign for x in patterns for sign in (0, SIGN)]


def exponents():
    tails = (0, 1, 2, 0x3FFFFF, 0x400000, 0x400001, 0x7FFFFE, 0x7FFFFF)
    return both_signs([(field << 23) + tail for field in range(256) for tail in tails])


def wholes_and_halves():
    small = [y for n in range(2 * 330) for y in neighbours(div(from_int(n), from_int(2)), 1)]
    large = [y for k in (8, 16, 23, 24, 31, 32, 63, 64) for y in neighbours(from_int(2**k), 8)]
    return both_signs(small + large)


def byte_steps():
    """Where the rounded byte of a channel changes, and where a texel of 7 does."""
    channels = [div(from_int(2 * n - 1), from_int(510)) for n in range(1, 256)]
    sevenths = [div(from_int(n), from_int(7)) for n in range(1, 8)]
    return [y for x in channels + sevenths for y in neighbours(x, 2)]


def tie_roots():
    """Patterns whose root is as near as any to the middle of two floats: m² + m - r with r small,
    if that is 24 digits and zeros after them. m is found digit by digit."""
    found = []
    for zeros in (23, 24):
        for r in range(-120, 121, 2):
            for m in (0, 1):
                for k in range(1, zeros):
                    m += (m * m + m - r >> k & 1) << k
                m += (1 << 23) if zeros == 23 else 0
                square = m * m + m - r
                if square.bit_length() == 24 + zeros:
                    found += [encode(False, square, power) for power in (-170, -48, -46, 0, 60)]
    return found


def squares(draw):
    roots = [0x800000 + draw() % 0x800000 for _ in range(300)]
    exact = [n * n for n in range(1, 1024)]
    middles = [(2 * n + 1) ** 2 for n in roots]
    return [encode(False, n, 0) for n in exact] + [
        y for n in middles for y in neighbours(encode(False, n, draw() % 100 - 80), 1)
    ]


def nans():
    tails = (1, 2, 0x3FFFFF, 0x400000, 0x400001, 0x5A5A5A, 0x7FFFFF)
    return both_signs([INF + tail for tail in tails])


def drawing(seed):
    """Knuth's 64-bit congruences, of which the upper half is used."""
    state = [seed]

    def draw():
        state[0] = (state[0] * 6364136223846793005 + 1442695040888963407) % 2**64
        return state[0] >> 32

    return draw


def everyday(x):
    """A pattern of magnitude 2^-9 to 2^23, made of any pattern."""
    return (x & SIGN) + 0x3B000000 + x % 0x10000000


def patterns(seed, count):
    draw = drawing(seed)
    fixed = exponents() + wholes_and_halves() + byte_steps() + tie_roots() + squares(draw) + nans()
    if len(fixed) > count:
        sys.exit("the list has %d patterns that are not random" % len(fixed))
    rest = [draw() for _ in range(count - len(fixed))]
    return fixed + [everyday(x) if at % 2 else x for at, x in enumerate(rest)]


def digest(results):
    """FNV-1a, 64 bits, over the results as little-endian words."""
    h = 14695981039346656037
    for word in results:
        for b in (int(word) & 0xFFFFFFFF).to_bytes(4, "little"):
            h = (h ^ b) * 1099511628211 % 2**64
    return h


def named(names):
    return [(name, SCALARS[name]) for name in names.split()]


LINES = named("float_of is_finite clamp01 max0 abs tiny floor_i32 ceil_i32 byte unit_byte")
LINES += [("texel%d" % side, lambda x, side=side: texel(x, side)) for side in (1, 7, 1024)]
LINES += named("first past sqrt")


def write_list(options):
    given = dict(zip(options[0::2], options[1::2]))
    words = patterns(int(given.get("--seed", "1")), int(given.get("--count", "100000")))
    text = "".join("%s %016x\n" % (name, digest(map(f, words))) for name, f in LINES)
    if "--stdin" in given:
        with open(given["--stdin"], "wb") as out:
            out.write(b"".join(word.to_bytes(4, "little") for word in words))
    if "--stdout" in given:
        with open(given["--stdout"], "w") as out:
            out.write(text)
    else:
        sys.stdout.write(text)


# ---- Known values

KNOWN = """
sqrt 40000000 3fb504f3      sqrt 00000001 1a3504f3      sqrt 7f7fffff 5f7fffff      sqrt 80000000 80000000
sqrt bf800000 7fc00000      sqrt 3f7fffff 3f7fffff      sqrt 3f800001 3f800000      sqrt 7f800000 7f800000
div 3f800000 40400000 3eaaaaab      div 40000000 40400000 3f2aaaab      div 00000001 40000000 00000000
div 00000003 40000000 00000002      div 3f800000 80000000 ff800000      div 00000000 00000000 7fc00000
div 00800000 40000000 00400000      div 7f7fffff 3f000000 7f800000      div 3f800000 7f7fffff 00200000
add 7f7fffff 7f7fffff 7f800000      add 7f7fffff 73000000 7f800000      add 7f7fffff 72ffffff 7f7fffff
add 3f800000 33800000 3f800000      add 3f800001 33800000 3f800002      add 3f800000 33800001 3f800001
add 80000000 80000000 80000000      add 80000000 00000000 00000000      sub 3f800000 3f800000 00000000
add 7f800000 ff800000 7fc00000      add 3dcccccd 3e4ccccd 3e99999a      sub 00800000 00000001 007fffff
mul 00000001 3f000000 00000000      mul 00000003 3f000000 00000002      mul 80000000 40a00000 80000000
mul 7f800000 00000000 7fc00000      mul 5f800000 5f800000 7f800000      mul 3f800001 3f800001 3f800002
lt 80000000 00000000 00000000       eq 80000000 00000000 00000001       le 7fc00000 7fc00000 00000000
eq 7fc00001 7fc00001 00000000       lt ff800000 80000001 00000001       le bf800000 c0000000 00000000
floor_i32 bf000000 ffffffff         ceil_i32 bf000000 00000000          floor_i32 4f000000 7fffffff
floor_i32 cf000001 80000000         ceil_i32 00000001 00000001          floor_i32 7fc00000 00000000
byte 437fffff 000000ff              byte bf7fffff 00000000              byte 437effff 000000fe
unit_byte 3f000000 00000080         unit_byte 3b00807f 00000000         unit_byte 3b008080 00000001
texel 3f800000 00000007 00000006    texel bf800000 00000007 00000000    texel 3f000000 00000400 00000200
clamp01 80000000 80000000           clamp01 ffffffff 7fc00000           max0 7fc00000 00000000
max0 80000000 00000000              tiny 34000000 00000001              tiny b4000001 00000000
from_int 01000001 4b800000          from_int 01000003 4b800002          from_int 000000ff 437f0000
past bf800000 00000000              past bf000000 00000001              first 43a00000 00000140
"""


def known_facts():
    facts, words = [], KNOWN.split()
    for word in words:
        if word in SCALARS:
            facts.append([word])
        else:
            facts[-1].append(word)
    return facts


def check_self():
    wrong = 0
    facts = known_facts()
    for name, *words in facts:
        got = answer(name, [int(word, 16) for word in words[:-1]])
        if got != words[-1]:
            wrong += 1
            print(name, *words[:-1], "gives", got, "and not", words[-1])
    vector = answer("normalize", [0x40400000, 0x00000000, 0x40800000])
    wrong += vector != "3f19999a 00000000 3f4ccccd"
    print("%d known values, %d wrong" % (len(facts) + 1, wrong))
    sys.exit(wrong > 0)


def main(arguments):
    name = arguments[0] if arguments else ""
    if name == "--self":
        check_self()
    elif name == "list":
        write_list(arguments[1:])
    elif name in SCALARS or name in GROUPS:
        for line in sys.stdin:
            print(answer(name, [int(word, 16) for word in line.split()]))
    else:
        sys.exit(__doc__ + LAYOUTS)


if __name__ == "__main__":
    main(sys.argv[1:])
