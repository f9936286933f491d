//! What a viewer does with this crate, with pictures: a depth picture that is unpacked and packed
//! again, also from a grab that is stored bottom row first, a camera frame by BT.601 and by BT.709
//! that is shown in two screen formats, and a frame that is one byte short. Each result is checked; the
//! exit status is 1 if one does not hold.
//!
//! usage: demo [FOLDER]   pictures go to FOLDER (default: out)

#[path = "demo/depth_picture.rs"]
mod depth_picture;
#[path = "demo/frames.rs"]
mod frames;
#[path = "demo/plant_room.rs"]
mod plant_room;
#[path = "demo/png.rs"]
mod png;
#[path = "demo/shade_card.rs"]
mod shade_card;
#[path = "demo/text.rs"]
mod text;
#[path = "demo/vial.rs"]
mod vial;

use std::error::Error;
use std::path::{Path, PathBuf};
use std::process::ExitCode;
use std::{env, fs};

use depth_picture::DepthPicture;
use frames::{BT601, BT709, Frame, NV12_PITCH, Screen};
use plant_room::{CABINET_FRONT, Camera, TERMINAL_BOX};
use wentuqis::Refused;
use wentuqis::depth_texture::PlaneLayout;
use wentuqis::format::{D3DFMT_A8R8G8B8, D3DFMT_D24S8, D3DFMT_R5G6B5};
use wentuqis::pixel_convert::{Region, Side, YuvSet, convert};

type Outcome = Result<(), Box<dyn Error>>;

/// Prints a line: what was done, and what came of it.
macro_rules! line {
    ($what:expr, $($result:tt)*) => {
        println!("   {:<28}{}", $what, format_args!($($result)*))
    };
}

fn main() -> ExitCode {
    let folder = PathBuf::from(env::args_os().nth(1).unwrap_or_else(|| "out".into()));
    match show(&folder) {
        Ok(()) => ExitCode::SUCCESS,
        Err(error) => {
            eprintln!("demo: {error}");
            ExitCode::FAILURE
        }
    }
}

fn show(folder: &Path) -> Outcome {
    fs::create_dir_all(folder).map_err(|error| format!("{}: {error}", folder.display()))?;
    depth_of_a_plant_room(folder)?;
    frames_of_a_vial(folder)?;
    frame_one_byte_short()
}

fn depth_of_a_plant_room(folder: &Path) -> Outcome {
    let (width, height) = (plant_room::WIDTH, plant_room::HEIGHT);
    println!("1  Depth picture of a plant room, D24S8, {width} x {height}");
    let camera = Camera::beside_door();
    let before = DepthPicture::seen_by(&camera);
    let after = packed_again(&before)?;
    let restored = before.same_pixels(&after);
    if restored != width * height {
        return Err(format!("only {restored} pixels were restored").into());
    }
    line!(
        "unpacked",
        "from rows of {} bytes, {} of them padding",
        before.pitch,
        before.padding()
    );
    line!(
        "packed again",
        "into rows of {} bytes, {} of them padding",
        after.pitch,
        after.padding()
    );
    line!("restored", "all {restored} pixels, depth and stencil");
    let from_grab = read_from_grab(&before)?;
    if before.same_pixels(&from_grab) != width * height {
        return Err("a pixel of the grab is another one".into());
    }
    line!(
        "grabbed bottom row first",
        "and turned over, all pixels the same"
    );

    let ends = [TERMINAL_BOX, CABINET_FRONT].map(|point| camera.pixel(point));
    let read = print_clearances(&camera, ends, &before, &after);
    let grabbed = clearance(&camera, ends, |pixel| from_grab.metres(pixel));
    line!("read from the grab", "{grabbed:.4} m");
    if grabbed != read {
        return Err("the grab has another clearance".into());
    }
    let path = folder.join("plant_room.png");
    after.drawn(ends, read).write(&path)?;
    line!("picture", "{}", path.display());
    Ok(())
}

/// Unpacks a picture into two planes, and packs these into rows of another length.
fn packed_again(before: &DepthPicture) -> Result<DepthPicture, Refused> {
    let layout = PlaneLayout::try_new(plant_room::WIDTH as u32, plant_room::HEIGHT as u32, 256)?;
    let mut depth = vec![0; layout.depth_pitch * layout.height];
    let mut stencil = vec![0; layout.stencil_pitch * layout.height];
    let (packed, pitch) = (&before.bytes, before.pitch);
    layout.try_unpack(D3DFMT_D24S8, packed, pitch, &mut depth, &mut stencil)?;
    let mut after = DepthPicture::empty(pitch + 60);
    let (packed, pitch) = (&mut after.bytes, after.pitch);
    layout.try_pack(D3DFMT_D24S8, &depth, &stencil, packed, pitch)?;
    Ok(after)
}

/// The picture by way of a grab of it that is stored bottom row first: turned over, unpacked and packed
/// again. From A8R8G8B8 to itself a word keeps every bit, whatever it holds.
fn read_from_grab(before: &DepthPicture) -> Result<DepthPicture, Refused> {
    let (width, height) = (plant_room::WIDTH as u32, plant_room::HEIGHT as u32);
    let grab = before.grabbed();
    let mut upright = DepthPicture::empty(4 * plant_room::WIDTH);
    let region = Region {
        source: Side::bottom_up(before.pitch as u32, height),
        destination: Side {
            pitch: upright.pitch as i64,
            ..Side::default()
        },
        ..Region::new(width, height)
    };
    let words = D3DFMT_A8R8G8B8;
    let set = &YuvSet::BT601;
    convert(&mut upright.bytes, words, &grab, words, &region, set)?;
    packed_again(&upright)
}

/// Prints the clearance as read before and after, and as it would be read from 16 bits; the one that
/// is read after.
fn print_clearances(
    camera: &Camera,
    ends: [(usize, usize); 2],
    before: &DepthPicture,
    after: &DepthPicture,
) -> f64 {
    let first = clearance(camera, ends, |pixel| before.metres(pixel));
    let again = clearance(camera, ends, |pixel| after.metres(pixel));
    let cut = clearance(camera, ends, |pixel| before.metres_of_16_bits(pixel));
    line!("clearance A to B, before", "{first:.4} m");
    line!("clearance A to B, after", "{again:.4} m");
    let off = (cut - first) * 1000.0;
    line!("cut to 16 bits, it reads", "{cut:.4} m, {off:+.1} mm");
    again
}

/// The distance between what two pixels show, in metres.
fn clearance(
    camera: &Camera,
    ends: [(usize, usize); 2],
    metres: impl Fn((usize, usize)) -> f64,
) -> f64 {
    let [a, b] = ends.map(|pixel| camera.point(pixel, metres(pixel)));
    plant_room::distance(a, b)
}

fn frames_of_a_vial(folder: &Path) -> Outcome {
    println!(
        "\n2  Camera frame of a vial, {} x {}",
        vial::WIDTH,
        vial::HEIGHT
    );
    let frames = [
        Frame::yuy2(),
        Frame::nv12("NV12", NV12_PITCH, &BT601),
        Frame::nv12("NV12_BT709", NV12_PITCH, &BT709),
    ];
    for frame in &frames {
        line!(frame.name, "rows of {} bytes", frame.pitch);
    }
    line!(
        "converted",
        "largest error against the exact values, in 255ths (limit)"
    );
    line!("", "{:<15}{:<15}{:<15}picture", "red", "green", "blue");
    let mut shades = Vec::new();
    for frame in &frames {
        for (format, name) in [(D3DFMT_A8R8G8B8, "A8R8G8B8"), (D3DFMT_R5G6B5, "R5G6B5")] {
            let mut screen = Screen::new(format);
            screen.show(frame)?;
            let path = folder.join(format!("vial_{}_{name}.png", frame.name).to_lowercase());
            let mut picture = screen.drawn();
            shades.push(shade_card::show(&mut picture));
            picture.write(&path)?;
            let what = format!("{} to {name}", frame.name);
            print_errors(&what, &screen.errors(frame), &path)?;
        }
    }
    let shade = shades[0];
    if shades.iter().any(|other| *other != shade) {
        return Err(format!("the shades differ: {shades:?}").into());
    }
    line!(
        "shade of the liquid",
        "{shade} of the panel, in each of the {} pictures",
        shades.len()
    );
    Ok(())
}

/// Prints the largest error of each channel beside its limit, both in thousandths of a 255th.
fn print_errors(what: &str, errors: &[(i64, i64); 3], path: &Path) -> Outcome {
    let cells = errors.map(|(error, limit)| {
        let cell = format!("{:.3} ({:.2})", error as f64 / 1e3, limit as f64 / 1e3);
        format!("{cell:<15}")
    });
    line!(what, "{}{}", cells.concat(), path.display());
    if errors.iter().any(|(error, limit)| error > limit) {
        return Err(format!("{what}: an error is above its limit").into());
    }
    Ok(())
}

fn frame_one_byte_short() -> Outcome {
    println!("\n3  The frame in NV12 without row padding, one byte short");
    let mut frame = Frame::nv12("NV12", vial::WIDTH, &BT601);
    frame.bytes.pop();
    let mut screen = Screen::new(D3DFMT_A8R8G8B8);
    let before = screen.bytes.clone();
    let Err(refused) = screen.show(&frame) else {
        return Err("a short frame was accepted".into());
    };
    line!("reply", "refused ({})", refused.number());
    for (i, part) in refused.to_string().split("; ").enumerate() {
        line!(if i == 0 { "text" } else { "" }, "{part}");
    }
    if screen.bytes != before {
        return Err("the screen changed".into());
    }
    line!("screen", "all {} bytes as they were", before.len());
    Ok(())
}
