//! What the camera looks at: a glass vial of amber liquid on a bench, beside a panel of six reference
//! shades. It is drawn in RGB; frames.rs samples it.

pub const WIDTH: usize = 480;
pub const HEIGHT: usize = 360;

/// Red, green and blue, 0 to 1.
type Colour = [f64; 3];

/// How strongly the liquid absorbs each channel, for a unit of path.
const ABSORPTION: Colour = [0.05, 0.28, 0.95];

/// The path that each shade of the panel stands for, and that of the liquid in the vial.
const SHADES: [f64; 6] = [0.25, 0.5, 0.9, 1.5, 2.4, 3.8];
const LIQUID: f64 = 1.5;

/// Where the bench begins, in pixels from the top.
const BENCH: f64 = 248.0;

/// The vial in pixels: its axis, its foot, half its width, the thickness of its glass.
const AXIS: f64 = 150.0;
const FOOT: f64 = 306.0;
const BODY: f64 = 62.0;
const WALL: f64 = 5.0;

/// Left top and size, in pixels, of a spot of the liquid beside its middle, where light passes about
/// the path of its shade.
pub const SPOT: ([usize; 2], [usize; 2]) = ([172, 206], [8, 24]);

/// The same inside each shade of the panel.
pub fn shade_spots() -> [([usize; 2], [usize; 2]); 6] {
    std::array::from_fn(|index| ([362, (61.0 + 40.5 * index as f64) as usize], [44, 20]))
}

/// The picture at a point, in pixels from the top left.
fn colour(x: f64, y: f64) -> Colour {
    if let Some(card) = panel(x, y) {
        return card;
    }
    vial(x, y, backdrop(x, y))
}

/// A light wall and a pale bench, with the vial's shadow and the glow of light through the liquid.
fn backdrop(x: f64, y: f64) -> Colour {
    let (across, down) = ((x - 240.0) / 480.0, (y - 180.0) / 360.0);
    let vignette = 1.0 - 0.35 * (across * across + down * down);
    if y < BENCH {
        return [0.74, 0.78, 0.80].map(|c| c * vignette * (0.93 + 0.1 * y / BENCH));
    }
    let far = (y - BENCH) / (360.0 - BENCH);
    let bench = [0.80, 0.79, 0.76].map(|c| c * vignette * (0.80 + 0.18 * far));
    let edge = smooth(0.0, 5.0, y - BENCH);
    let lit = mix([0.50, 0.51, 0.52], bench, edge);
    // the light comes from the left: shadow and glow fall to the right
    let (sx, sy) = ((x - AXIS - 52.0) / 108.0, (y - FOOT + 4.0) / 17.0);
    let shadow = smooth(1.0, 0.15, (sx * sx + sy * sy).sqrt());
    let shaded = mix(lit, [0.36, 0.34, 0.32], 0.62 * shadow);
    let (gx, gy) = ((x - AXIS - 74.0) / 52.0, (y - FOOT + 5.0) / 8.0);
    let glow = smooth(1.0, 0.0, (gx * gx + gy * gy).sqrt());
    mix(shaded, [0.93, 0.62, 0.16], 0.55 * glow)
}

/// The card with its six shades, one above the other.
fn panel(x: f64, y: f64) -> Option<Colour> {
    let (left, right, top, bottom) = (318.0, 428.0, 46.0, 300.0);
    if !(left..right).contains(&x) || !(top..bottom).contains(&y) {
        let shadow =
            (left + 6.0..right + 6.0).contains(&x) && (top + 6.0..bottom + 5.0).contains(&y);
        return shadow.then(|| backdrop(x, y).map(|c| c * 0.72));
    }
    let card = [0.95, 0.95, 0.93];
    let row = (y - top - 9.0) / 40.5;
    let index = row.floor();
    let in_row = (row - index) * 40.5;
    if !(0.0..6.0).contains(&index) {
        return Some(card);
    }
    let index = index as usize;
    if (left + 34.0..right - 10.0).contains(&x) && (0.0..33.0).contains(&in_row) {
        let inside = (left + 35.5..right - 11.5).contains(&x) && (1.5..31.5).contains(&in_row);
        let shade = through([0.96, 0.95, 0.93], SHADES[index]);
        return Some(if inside { shade } else { [0.30, 0.30, 0.30] });
    }
    let digit = digit(index + 1, (x - left - 12.0) / 2.5, (in_row - 10.0) / 2.5);
    Some(if digit { [0.22, 0.22, 0.22] } else { card })
}

/// Whether a point of a 3 × 5 grid belongs to a digit.
fn digit(value: usize, x: f64, y: f64) -> bool {
    const ROWS: [[u8; 5]; 6] = [
        [0b010, 0b110, 0b010, 0b010, 0b111],
        [0b110, 0b001, 0b010, 0b100, 0b111],
        [0b110, 0b001, 0b010, 0b001, 0b110],
        [0b101, 0b101, 0b111, 0b001, 0b001],
        [0b111, 0b100, 0b110, 0b001, 0b110],
        [0b011, 0b100, 0b111, 0b101, 0b111],
    ];
    (0.0..3.0).contains(&x)
        && (0.0..5.0).contains(&y)
        && ROWS[value - 1][y as usize] >> (2 - x as usize) & 1 == 1
}

/// Half the width of the glass at a height; 0 where there is none.
fn outline(y: f64) -> f64 {
    const RIM: f64 = 92.0;
    const NECK: f64 = 112.0;
    const SHOULDER: f64 = 140.0;
    if !(RIM..=FOOT).contains(&y) {
        0.0
    } else if y < NECK {
        38.0
    } else if y < SHOULDER {
        let t = (y - NECK) / (SHOULDER - NECK);
        38.0 + (BODY - 38.0) * t * t * (3.0 - 2.0 * t)
    } else {
        // the foot is rounded
        let rise = (FOOT - y).min(10.0) / 10.0;
        BODY - 10.0 * (1.0 - (1.0 - (1.0 - rise) * (1.0 - rise)).sqrt())
    }
}

/// The vial over what stands behind it.
fn vial(x: f64, y: f64, behind: Colour) -> Colour {
    if let Some(cap) = cap(x, y) {
        return cap;
    }
    // the foot and every level curve a little, as seen from slightly above
    let across = ((x - AXIS) / BODY).clamp(-1.0, 1.0);
    let curve = 7.0 * (1.0 - across * across).sqrt();
    let half = outline(y - curve + 4.0);
    let side = (x - AXIS) / half;
    if half == 0.0 || side.abs() >= 1.0 {
        return behind;
    }
    let glass = glass(side, liquid(x, y, half, curve, behind));
    highlight(side, y, glass)
}

/// The liquid, its surface and the clear glass above it and below.
fn liquid(x: f64, y: f64, half: f64, curve: f64, behind: Colour) -> Colour {
    const SURFACE: f64 = 176.0;
    let inner = (x - AXIS) / (half - WALL);
    let clear = behind.map(|c| 0.93 * c + 0.03);
    if inner.abs() >= 1.0 || y > FOOT - 10.0 + curve {
        return clear;
    }
    // the meniscus climbs the wall
    let climb = 5.0 * inner.powi(6);
    let (front, back) = (SURFACE + curve - climb, SURFACE - curve - climb);
    let path = (1.0 - inner * inner).sqrt();
    if y > front {
        let deep = through(clear.map(|c| 1.18 * c), LIQUID * (0.25 + 0.85 * path));
        let rim = smooth(3.0, 0.0, y - front);
        mix(deep, [0.98, 0.86, 0.55], 0.35 * rim)
    } else if y > back {
        let surface = through(clear, 0.45 * LIQUID);
        let rim = smooth(2.5, 0.0, (y - back).min(front - y));
        mix(surface, [0.60, 0.36, 0.08], 0.30 * rim)
    } else {
        clear
    }
}

/// Glass darkens towards its edge.
fn glass(side: f64, inside: Colour) -> Colour {
    let edge = smooth(0.80, 1.0, side.abs());
    let dark = mix(inside, [0.34, 0.38, 0.39], 0.60 * edge);
    let rim = smooth(0.965, 0.99, side.abs());
    mix(dark, [0.80, 0.84, 0.85], 0.5 * rim)
}

/// The window in the glass: a broad reflection on the left, a thin one on the right.
fn highlight(side: f64, y: f64, glass: Colour) -> Colour {
    let ends = smooth(100.0, 150.0, y) * smooth(300.0, 250.0, y);
    let broad = smooth(0.13, 0.05, (side + 0.62).abs()) * ends;
    let thin = smooth(0.05, 0.01, (side - 0.74).abs()) * ends;
    mix(glass, [1.0, 1.0, 1.0], 0.62 * broad + 0.35 * thin)
}

/// The ribbed cap.
fn cap(x: f64, y: f64) -> Option<Colour> {
    let side = (x - AXIS) / 44.0;
    let curve = 6.0 * (1.0 - side * side).max(0.0).sqrt();
    if side.abs() >= 1.0 || y < 58.0 - curve || y >= 96.0 + curve {
        return None;
    }
    if y < 58.0 + curve {
        let light = 0.30 + 0.06 * side;
        return Some([light, light, 0.02 + light]);
    }
    let round = (1.0 - side * side).sqrt();
    let rib = 0.5 + 0.5 * (side.asin() * 34.0).cos();
    let lit = smooth(0.9, 0.0, (side + 0.45).abs());
    let light = 0.05 + 0.10 * round + 0.05 * rib * round + 0.16 * lit;
    Some([light, light, 0.01 + light])
}

/// Light after a path through the liquid.
fn through(light: Colour, path: f64) -> Colour {
    std::array::from_fn(|i| light[i] * (-ABSORPTION[i] * path).exp())
}

/// `a` at 0, `b` at 1.
fn mix(a: Colour, b: Colour, t: f64) -> Colour {
    let t = t.clamp(0.0, 1.0);
    std::array::from_fn(|i| a[i] + (b[i] - a[i]) * t)
}

/// 0 at `from`, 1 at `to`, smooth between; `from` may be the larger.
fn smooth(from: f64, to: f64, x: f64) -> f64 {
    let t = ((x - from) / (to - from)).clamp(0.0, 1.0);
    t * t * (3.0 - 2.0 * t)
}

/// The colour of a pixel, 0 to 255, as the mean of 4 × 4 points.
pub fn pixel(x: usize, y: usize) -> Colour {
    let mut sum = [0.0; 3];
    for i in 0..16 {
        let (dx, dy) = ((i % 4) as f64 + 0.5, (i / 4) as f64 + 0.5);
        let point = colour(x as f64 + dx / 4.0, y as f64 + dy / 4.0);
        for (total, channel) in sum.iter_mut().zip(point) {
            *total += channel.clamp(0.0, 1.0) * 255.0 / 16.0;
        }
    }
    sum
}
