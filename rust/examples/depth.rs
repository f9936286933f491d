//! A depth picture in D24S8: unpacked into a depth plane and a stencil plane, a clearance read from
//! it, and packed again, which restores every pixel. Then a depth plane one byte short, which is
//! refused. A program to start from: replace `draw` by a rendered picture, and the two planes of the
//! projection by those it was rendered with.

use std::error::Error;

use wentuqis::depth_texture::PlaneLayout;
use wentuqis::format::D3DFMT_D24S8;

const WIDTH: usize = 48;
const HEIGHT: usize = 32;
const PITCH: usize = 4 * WIDTH + 36;
const OTHER_PITCH: usize = 4 * WIDTH + 100;

/// What the stencil byte of a pixel says that it shows.
const WALL: u8 = 1;
const CABINET: u8 = 2;

/// The near and the far plane of the projection, and the distances along the view axis, in metres.
const NEAR: f64 = 0.05;
const FAR: f64 = 50.0;
const WALL_AT: f64 = 4.0;
const CABINET_AT: f64 = 2.5;

fn main() -> Result<(), Box<dyn Error>> {
    let packed = draw();
    let layout = PlaneLayout::try_new(WIDTH as u32, HEIGHT as u32, 256)?;
    let mut depth = vec![0; layout.depth_pitch * layout.height];
    let mut stencil = vec![0; layout.stencil_pitch * layout.height];
    layout.try_unpack(D3DFMT_D24S8, &packed, PITCH, &mut depth, &mut stencil)?;

    let (x, y) = (WIDTH / 2, HEIGHT / 2);
    if stencil[layout.stencil_pitch * y + x] != CABINET || stencil[layout.stencil_pitch * y] != WALL
    {
        return Err("the stencil plane does not show the cabinet before the wall".into());
    }
    let cabinet = metres_at(&depth, &layout, x, y);
    let wall = metres_at(&depth, &layout, 0, y);
    let clearance = wall - cabinet;
    println!("cabinet at {cabinet:.3} m, wall at {wall:.3} m, clearance {clearance:.3} m");

    let mut again = vec![0; OTHER_PITCH * HEIGHT];
    layout.try_pack(D3DFMT_D24S8, &depth, &stencil, &mut again, OTHER_PITCH)?;
    let (same, all) = (same_pixels(&packed, &again), WIDTH * HEIGHT);
    println!("packed again: {same} of {all} pixels restored");
    if same != all {
        return Err("a pixel was not restored".into());
    }

    depth.pop();
    let Err(refused) = layout.try_pack(D3DFMT_D24S8, &depth, &stencil, &mut again, OTHER_PITCH)
    else {
        return Err("a short plane was accepted".into());
    };
    println!("pack: refused ({}): {refused}", refused.number());
    Ok(())
}

/// The depth that Direct3D's projection gives to a distance, 0 at the near plane and 1 at the far
/// plane.
fn depth_of(metres: f64) -> f64 {
    FAR / (FAR - NEAR) * (1.0 - NEAR / metres)
}

fn metres_of(depth: f64) -> f64 {
    NEAR / (1.0 - depth * (FAR - NEAR) / FAR)
}

/// A wall, and a cabinet before the middle of it: the stencil byte, then the nearest 24-bit code.
fn draw() -> Vec<u8> {
    let mut packed = vec![0; PITCH * HEIGHT];
    for (y, row) in packed.chunks_exact_mut(PITCH).enumerate() {
        for (x, pixel) in row[..4 * WIDTH].chunks_exact_mut(4).enumerate() {
            let cabinet = (WIDTH / 3..2 * WIDTH / 3).contains(&x) && y >= HEIGHT / 4;
            let (stencil, metres) = if cabinet {
                (CABINET, CABINET_AT)
            } else {
                (WALL, WALL_AT)
            };
            let code = (depth_of(metres) * 16_777_215.0).round() as u32;
            pixel.copy_from_slice(&(code << 8 | u32::from(stencil)).to_le_bytes());
        }
    }
    packed
}

/// The distance along the view axis of what a pixel shows.
fn metres_at(depth: &[u8], layout: &PlaneLayout, x: usize, y: usize) -> f64 {
    let bytes = &depth[layout.depth_pitch * y + 4 * x..][..4];
    let number = f32::from_le_bytes([bytes[0], bytes[1], bytes[2], bytes[3]]);
    metres_of(number.into())
}

/// How many pixels hold the same four bytes in both pictures.
fn same_pixels(packed: &[u8], again: &[u8]) -> usize {
    let rows = packed
        .chunks_exact(PITCH)
        .zip(again.chunks_exact(OTHER_PITCH));
    rows.flat_map(|(row, other)| {
        let other = other.chunks_exact(4);
        row[..4 * WIDTH].chunks_exact(4).zip(other)
    })
    .filter(|(pixel, other)| pixel == other)
    .count()
}
