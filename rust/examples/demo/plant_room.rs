//! A plant room as a depth picture: a floor, a far wall and a pump skid, seen by a pinhole camera.
//!
//! Lengths are metres; x goes right, y up, z away from the door. A depth of 0 to 1 stands for a
//! distance along the view axis, from the near plane to the far plane, as Direct3D projects it.

use std::array;

use Solid::{Ball, Block};

pub const WIDTH: usize = 640;
pub const HEIGHT: usize = 400;

const NEAR: f64 = 0.05;
const FAR: f64 = 50.0;

/// Stencil values.
const FLOOR: u8 = 1;
const WALL: u8 = 2;
const STEEL: u8 = 3;
const MACHINE: u8 = 4;
const PIPE: u8 = 5;
const CABINET: u8 = 6;

pub type Point = [f64; 3];

/// The depth of a distance along the view axis.
pub fn depth_of(metres: f64) -> f64 {
    FAR / (FAR - NEAR) * (1.0 - NEAR / metres)
}

/// The distance along the view axis that a depth stands for.
pub fn metres_of(depth: f64) -> f64 {
    NEAR / (1.0 - depth * (FAR - NEAR) / FAR)
}

/// The distance between two points.
pub fn distance(a: Point, b: Point) -> f64 {
    dot(minus(a, b), minus(a, b)).sqrt()
}

/// A pinhole camera: its place, its axes, and the focal length in pixels.
pub struct Camera {
    eye: Point,
    right: Point,
    up: Point,
    forward: Point,
    focal: f64,
}

impl Camera {
    /// The camera beside the door, which sees the skid and the far wall.
    pub fn beside_door() -> Self {
        Self::looking(EYE, TARGET, 520.0)
    }

    fn looking(eye: Point, target: Point, focal: f64) -> Self {
        let forward = unit(minus(target, eye));
        let right = unit(cross([0.0, 1.0, 0.0], forward));
        Self {
            eye,
            right,
            up: cross(forward, right),
            forward,
            focal,
        }
    }

    /// The direction through the middle of a pixel, of length 1 along the view axis.
    fn direction(&self, x: usize, y: usize) -> Point {
        let across = (x as f64 + 0.5 - WIDTH as f64 / 2.0) / self.focal;
        let above = (HEIGHT as f64 / 2.0 - y as f64 - 0.5) / self.focal;
        array::from_fn(|i| self.forward[i] + across * self.right[i] + above * self.up[i])
    }

    /// The point that a pixel shows at this distance along the view axis.
    pub fn point(&self, (x, y): (usize, usize), metres: f64) -> Point {
        let direction = self.direction(x, y);
        array::from_fn(|i| self.eye[i] + metres * direction[i])
    }

    /// The pixel that shows a point in front of the camera.
    pub fn pixel(&self, point: Point) -> (usize, usize) {
        let from_eye = minus(point, self.eye);
        let scale = self.focal / dot(from_eye, self.forward);
        let x = WIDTH as f64 / 2.0 + scale * dot(from_eye, self.right);
        let y = HEIGHT as f64 / 2.0 - scale * dot(from_eye, self.up);
        (x as usize, y as usize)
    }

    /// What a pixel shows: the distance along the view axis, and the stencil value.
    pub fn sees(&self, x: usize, y: usize) -> (f64, u8) {
        let direction = self.direction(x, y);
        let room = room_behind(self.eye, direction);
        SOLIDS
            .iter()
            .filter_map(|(solid, stencil)| Some((solid.hit(self.eye, direction)?, *stencil)))
            .fold(room, |near, hit| if hit.0 < near.0 { hit } else { near })
    }
}

const EYE: Point = [-2.3, 2.05, -0.4];
const TARGET: Point = [0.35, 0.95, 5.2];

/// The two ends of the clearance: the motor's terminal box and the front of the cabinet.
pub const TERMINAL_BOX: Point = [-0.88, 1.15, 4.55];
pub const CABINET_FRONT: Point = [-1.7, 1.0, 7.4];

const ROOM: (Point, Point) = ([-4.2, 0.0, -1.5], [4.6, 3.7, 8.6]);

/// The far side of the room, its floor or its walls.
fn room_behind(eye: Point, direction: Point) -> (f64, u8) {
    let walls = array::from_fn::<f64, 3, _>(|i| {
        let side = if direction[i] > 0.0 {
            ROOM.1[i]
        } else {
            ROOM.0[i]
        };
        (side - eye[i]) / direction[i]
    });
    let metres = walls[0].min(walls[1]).min(walls[2]);
    let floor = metres == walls[1] && direction[1] < 0.0;
    (metres, if floor { FLOOR } else { WALL })
}

enum Solid {
    /// A box between two corners.
    Block(Point, Point),
    /// A cylinder along an axis: its middle line passes through the point, from the point's own
    /// coordinate on that axis to the given one.
    Round {
        axis: usize,
        from: Point,
        to: f64,
        radius: f64,
    },
    Ball(Point, f64),
}

/// Axes.
const X: usize = 0;
const Y: usize = 1;
const Z: usize = 2;

const fn round(axis: usize, from: Point, to: f64, radius: f64) -> Solid {
    Solid::Round {
        axis,
        from,
        to,
        radius,
    }
}

#[rustfmt::skip]
const SOLIDS: &[(Solid, u8)] = &[
    // the plinth and the frame of the skid: two beams, three cross members
    (Block([-1.95, 0.00, 4.05], [1.55, 0.10, 5.45]), STEEL),
    (Block([-1.80, 0.10, 4.15], [1.40, 0.30, 4.30]), STEEL),
    (Block([-1.80, 0.10, 5.20], [1.40, 0.30, 5.35]), STEEL),
    (Block([-1.80, 0.10, 4.15], [-1.65, 0.30, 5.35]), STEEL),
    (Block([-0.25, 0.10, 4.15], [-0.10, 0.30, 5.35]), STEEL),
    (Block([1.25, 0.10, 4.15], [1.40, 0.30, 5.35]), STEEL),
    (Block([-1.45, 0.30, 4.40], [-0.45, 0.46, 5.10]), STEEL),
    (Block([0.30, 0.30, 4.50], [0.75, 0.40, 5.00]), STEEL),
    // the motor, its fan cover, its terminal box
    (round(X, [-1.45, 0.78, 4.75], -0.35, 0.32), MACHINE),
    (round(X, [-1.62, 0.78, 4.75], -1.40, 0.29), MACHINE),
    (round(X, [-1.20, 0.78, 4.75], -1.16, 0.35), MACHINE),
    (round(X, [-0.98, 0.78, 4.75], -0.94, 0.35), MACHINE),
    (round(X, [-0.76, 0.78, 4.75], -0.72, 0.35), MACHINE),
    (round(X, [-0.54, 0.78, 4.75], -0.50, 0.35), MACHINE),
    (Block([-1.05, 1.05, 4.55], [-0.70, 1.26, 4.90]), MACHINE),
    // the coupling guard, the bearing housing, the casing with its flanges
    (round(X, [-0.35, 0.78, 4.75], 0.10, 0.15), MACHINE),
    (round(X, [0.05, 0.78, 4.75], 0.42, 0.20), MACHINE),
    (round(X, [0.38, 0.78, 4.75], 0.72, 0.46), MACHINE),
    (round(X, [0.70, 0.78, 4.75], 0.78, 0.30), MACHINE),
    (Ball([0.55, 0.78, 4.75], 0.49), MACHINE),
    // suction: flange, pipe, a valve with its wheel, to the right wall
    (round(X, [0.95, 0.78, 4.75], 1.02, 0.28), PIPE),
    (round(X, [0.70, 0.78, 4.75], 4.60, 0.16), PIPE),
    (round(X, [1.95, 0.78, 4.75], 2.45, 0.24), PIPE),
    (round(Y, [2.20, 0.78, 4.75], 1.30, 0.06), PIPE),
    (round(Y, [2.20, 1.30, 4.75], 1.34, 0.26), PIPE),
    (Block([2.95, 0.00, 4.68], [3.05, 0.70, 4.82]), STEEL),
    // discharge: flange, riser, valve, bend, and away to the far wall
    (round(Y, [0.55, 1.20, 4.75], 1.34, 0.22), PIPE),
    (round(Y, [0.55, 0.90, 4.75], 2.75, 0.13), PIPE),
    (round(Y, [0.55, 1.75, 4.75], 2.10, 0.20), PIPE),
    (round(Z, [0.55, 1.92, 4.75], 4.30, 0.05), PIPE),
    (round(Z, [0.55, 1.92, 4.30], 4.26, 0.22), PIPE),
    (Ball([0.55, 2.75, 4.75], 0.15), PIPE),
    (round(Z, [0.55, 2.75, 4.75], 8.60, 0.13), PIPE),
    (round(Z, [0.55, 2.75, 6.60], 6.68, 0.21), PIPE),
    // the header under the ceiling, and its two drops along the far wall
    (round(X, [-4.20, 3.25, 8.10], 4.60, 0.14), PIPE),
    (round(Y, [1.90, 0.00, 8.30], 3.25, 0.10), PIPE),
    (round(Y, [2.55, 0.00, 8.30], 3.25, 0.10), PIPE),
    // the cabinet with its plinth and door frame, and a tank in the far corner
    (Block([-2.85, 0.00, 7.45], [-1.45, 0.10, 8.60]), CABINET),
    (Block([-2.80, 0.10, 7.40], [-1.50, 2.10, 8.60]), CABINET),
    (Block([-2.20, 1.00, 7.36], [-2.14, 1.20, 7.40]), CABINET),
    (round(Y, [3.60, 0.00, 7.50], 2.20, 0.70), MACHINE),
    (Ball([3.60, 2.05, 7.50], 0.70), MACHINE),
];

impl Solid {
    /// The distance along the view axis at which a ray enters the solid.
    fn hit(&self, eye: Point, direction: Point) -> Option<f64> {
        match self {
            Block(low, high) => {
                let spans =
                    array::from_fn::<_, 3, _>(|i| span(eye[i], direction[i], low[i], high[i]));
                entry(&spans)
            }
            Ball(centre, radius) => {
                let offset = minus(eye, *centre);
                let squares = [
                    dot(direction, direction),
                    dot(offset, direction),
                    dot(offset, offset),
                ];
                entry(&[within(squares, *radius)])
            }
            Self::Round {
                axis,
                from,
                to,
                radius,
            } => {
                let (i, j) = ((axis + 1) % 3, (axis + 2) % 3);
                let offset = minus(eye, *from);
                let squares = [
                    direction[i] * direction[i] + direction[j] * direction[j],
                    offset[i] * direction[i] + offset[j] * direction[j],
                    offset[i] * offset[i] + offset[j] * offset[j],
                ];
                let (low, high) = (from[*axis].min(*to), from[*axis].max(*to));
                entry(&[
                    within(squares, *radius),
                    span(eye[*axis], direction[*axis], low, high),
                ])
            }
        }
    }
}

/// Where a ray lies between two planes across one axis.
fn span(eye: f64, direction: f64, low: f64, high: f64) -> (f64, f64) {
    let (a, b) = ((low - eye) / direction, (high - eye) / direction);
    (a.min(b), a.max(b))
}

/// Where a ray lies within a radius: `[a, b, c]` with a t² + 2 b t + c as its squared distance.
fn within([a, b, c]: [f64; 3], radius: f64) -> (f64, f64) {
    let root = (b * b - a * (c - radius * radius)).sqrt();
    if root.is_nan() {
        return (f64::INFINITY, f64::NEG_INFINITY);
    }
    ((-b - root) / a, (-b + root) / a)
}

/// Where a ray enters all of these spans together, in front of the near plane.
fn entry(spans: &[(f64, f64)]) -> Option<f64> {
    let enter = spans.iter().fold(NEAR, |near, span| near.max(span.0));
    let leave = spans.iter().fold(FAR, |far, span| far.min(span.1));
    (enter < leave).then_some(enter)
}

fn minus(a: Point, b: Point) -> Point {
    array::from_fn(|i| a[i] - b[i])
}

fn dot(a: Point, b: Point) -> f64 {
    a[0] * b[0] + a[1] * b[1] + a[2] * b[2]
}

fn cross(a: Point, b: Point) -> Point {
    array::from_fn(|i| {
        let (j, k) = ((i + 1) % 3, (i + 2) % 3);
        a[j] * b[k] - a[k] * b[j]
    })
}

fn unit(a: Point) -> Point {
    let length = dot(a, a).sqrt();
    a.map(|coordinate| coordinate / length)
}
