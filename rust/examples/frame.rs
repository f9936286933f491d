//! A camera frame in NV12, eight colour bars of BT.709, shown on a screen in A8R8G8B8; then the same
//! frame one byte short, which is refused and leaves the screen as it was. A program to start from:
//! replace `bars_frame` by a camera.

use std::error::Error;

use wentuqis::Refused;
use wentuqis::format::{D3DFMT_A8R8G8B8, D3DFMT_NV12};
use wentuqis::pixel_convert::{Region, Side, YuvSet, convert};
use wentuqis::planar_yuv::{PlanarYuvLayout, try_planar_yuv_layout};

const WIDTH: usize = 64;
const HEIGHT: usize = 48;
const PADDING: usize = 32;
const SCREEN_PITCH: usize = 4 * WIDTH + PADDING;

/// Name, luma, U and V of a bar.
const BARS: [(&str, u8, [u8; 2]); 8] = [
    ("white", 180, [128, 128]),
    ("yellow", 168, [44, 136]),
    ("cyan", 145, [147, 44]),
    ("green", 133, [63, 52]),
    ("magenta", 63, [193, 204]),
    ("red", 51, [109, 212]),
    ("blue", 28, [212, 120]),
    ("black", 16, [128, 128]),
];

fn main() -> Result<(), Box<dyn Error>> {
    let layout = try_planar_yuv_layout(D3DFMT_NV12, WIDTH as u32, HEIGHT as u32)?;
    let mut frame = bars_frame(&layout);
    let mut screen = vec![0; SCREEN_PITCH * HEIGHT];
    show(&mut screen, &frame, &layout)?;
    print_bars(&screen);

    let before = screen.clone();
    frame.pop();
    let Err(refused) = show(&mut screen, &frame, &layout) else {
        return Err("a short frame was accepted".into());
    };
    println!("convert: refused ({}): {refused}", refused.number());
    if screen != before {
        return Err("the screen changed".into());
    }
    println!("the screen is as it was");
    Ok(())
}

/// The bars as a frame of this layout.
fn bars_frame(layout: &PlanarYuvLayout) -> Vec<u8> {
    let mut frame = vec![0; layout.total_bytes()];
    for y in 0..HEIGHT {
        for x in 0..WIDTH {
            let (_, luma, chroma) = BARS[x * BARS.len() / WIDTH];
            frame[layout.luma_offset(x, y)] = luma;
            frame[layout.nv12_uv_offset(x, y)..][..2].copy_from_slice(&chroma);
        }
    }
    frame
}

/// Shows a frame of this layout by BT.709.
fn show(screen: &mut [u8], frame: &[u8], layout: &PlanarYuvLayout) -> Result<(), Refused> {
    let pitch = layout.pitch();
    let region = Region {
        source: Side {
            pitch: pitch.into(),
            slice_pitch: pitch as usize * layout.luma_rows() as usize,
            ..Side::default()
        },
        destination: Side {
            pitch: SCREEN_PITCH as i64,
            ..Side::default()
        },
        ..Region::new(WIDTH as u32, HEIGHT as u32)
    };
    let set = YuvSet::BT709;
    convert(screen, D3DFMT_A8R8G8B8, frame, D3DFMT_NV12, &region, &set)
}

/// Prints the middle texel of each bar.
fn print_bars(screen: &[u8]) {
    for (bar, (name, ..)) in BARS.iter().enumerate() {
        let x = (2 * bar + 1) * WIDTH / (2 * BARS.len());
        let texel = &screen[HEIGHT / 2 * SCREEN_PITCH + 4 * x..][..4];
        let (red, green, blue) = (texel[2], texel[1], texel[0]);
        println!("{name:<8} red {red:3}  green {green:3}  blue {blue:3}");
    }
}
