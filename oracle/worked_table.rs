//! Prints the worked table (docs/RULES.md, Worked table) as the original computes it, one row a line.
//! Every number comes from a call of the original, but for the inputs and the number in brackets
//! after "refused": the original answers `None` or `false`, and the bracket names the refusal of the
//! rules. worked_table.txt has the same rows as the rules state them; the test is their difference.

mod common;

use common::convert_texel;
use mtld3d_types::*;
use original::{
    convert::{d3dcolor_fill_pixel_bytes, f32_to_f16_bits},
    depth_texture::{PackedDepth, PlaneLayout},
    planar_yuv::planar_yuv_layout,
    stretch_rect::yuv_to_rgb8,
};

/// Each line has a sentence, a bar, and the numbers that the proved table prints for it, row by row:
/// an answer's number where it may be refused, and the zeros that are handed back then.
fn main() {
    yuv_rows();
    channel_rows();
    depth_row();
    layout_rows();
    refusal_rows();
}

/// What is said of a call that the original accepts or refuses; `number` is that of the refusal.
fn reply(accepted: bool, accepts: &str, number: u32) -> String {
    if accepted {
        accepts.to_string()
    } else {
        format!("is refused ({number})")
    }
}

/// The number of that reply.
const fn number(accepted: bool, number: u32) -> u32 {
    if accepted { 0 } else { number }
}

fn yuv_rows() {
    for (row, luma) in [("P1", 16), ("P2", 235)] {
        let (r, g, b) = yuv_to_rgb8(luma, 128, 128);
        println!("{row} YUV {luma},128,128 gives RGB {r},{g},{b} | {r} {g} {b}");
    }
}

fn channel_rows() {
    let [red, green, blue] = [[0, 0, 255, 0], [0, 255, 0, 0], [255, 0, 0, 0]].map(luminance);
    println!(
        "P3 luminance of pure red, green, blue: {red}, {green}, {blue} | {red}; {green}; {blue}"
    );

    let texel: [u8; 4] = convert_texel(D3DFMT_A8R8G8B8, &[0x00, 0xf8], D3DFMT_R5G6B5).unwrap();
    let [b, g, r, a] = texel;
    println!(
        "P4 R5G6B5 bytes 00 F8 to A8R8G8B8: {b:02X} {g:02X} {r:02X} {a:02X} \
         | 0x{b:02x} 0x{g:02x} 0x{r:02x} 0x{a:02x}"
    );

    let [r5g6b5, a1r5g5b5, a4r4g4b4] =
        [D3DFMT_R5G6B5, D3DFMT_A1R5G5B5, D3DFMT_A4R4G4B4].map(|code| fill16(0xdead_beef, code));
    println!(
        "P5 fill DEADBEEF: R5G6B5 {r5g6b5:04X}, A1R5G5B5 {a1r5g5b5:04X}, A4R4G4B4 {a4r4g4b4:04X} \
         | 0x{r5g6b5:04x}; 0x{a1r5g5b5:04x}; 0x{a4r4g4b4:04x}"
    );

    let codes = [32767_u16, 32768, 32767, 32768].map(u16::to_le_bytes);
    let [blue, green, red, alpha] = colour(codes.as_flattened(), D3DFMT_A16B16G16R16);
    println!(
        "P6 sixteen-bit 32767 gives {red}, 32768 gives {green} | {blue} {green} {red} {alpha}"
    );

    let halves = [0.5_f32; 4].map(f32::to_le_bytes);
    let [blue, green, red, alpha] = colour(halves.as_flattened(), D3DFMT_A32B32G32R32F);
    println!("P7 float 0.5 gives {red} | {blue} {green} {red} {alpha}");

    let [below, above] = [65519.0, 65520.0].map(f32_to_f16_bits);
    println!(
        "P8 binary16 of 65519 is {below:04X}, of 65520 is {above:04X} | 0x{below:04x}; 0x{above:04x}"
    );
}

/// The luminance of an A8R8G8B8 texel.
fn luminance(texel: [u8; 4]) -> u8 {
    let [luminance] = convert_texel(D3DFMT_L8, &texel, D3DFMT_A8R8G8B8).unwrap();
    luminance
}

/// The 16-bit texel that a fill of `code` writes.
fn fill16(color: u32, code: u32) -> u16 {
    let bytes = d3dcolor_fill_pixel_bytes(color, code).unwrap();
    u16::from_le_bytes(bytes.try_into().unwrap())
}

/// The bytes, as A8R8G8B8, of a texel.
fn colour(texel: &[u8], format: u32) -> [u8; 4] {
    convert_texel(D3DFMT_A8R8G8B8, texel, format).unwrap()
}

fn depth_row() {
    let d16 = packed_depth(D3DFMT_D16) & 0xffff;
    let d24x8 = packed_depth(D3DFMT_D24X8) & 0xff_ffff;
    let d24s8 = packed_depth(D3DFMT_D24S8) >> 8;
    println!(
        "P9 depth 0.5 packs to {d16} (D16), {d24x8} (D24X8), {d24s8} (D24S8) \
         | {d16}; {d24s8} {d24x8}"
    );
}

/// The word that packing one pixel of depth 0.5 and stencil 0 writes.
fn packed_depth(code: u32) -> u32 {
    let format = PackedDepth::from_d3d(code).unwrap();
    let layout = PlaneLayout::new(1, 1, 4).unwrap();
    let mut packed = [0; 4];
    assert!(layout.pack(&format, &0.5_f32.to_le_bytes(), &[0; 4], &mut packed, 4));
    u32::from_le_bytes(packed)
}

fn layout_rows() {
    let nv12 = planar_yuv_layout(D3DFMT_NV12, 6, 3).unwrap();
    let (pitch, bytes, u) = (nv12.pitch(), nv12.total_bytes(), nv12.nv12_uv_offset(5, 2));
    println!(
        "P10 NV12 6 x 3: pitch {pitch}, {bytes} bytes, U of (5,2) at {u} | 0 {pitch} {bytes} {u}"
    );
    let yv12 = planar_yuv_layout(D3DFMT_YV12, 6, 4).unwrap();
    let odd = planar_yuv_layout(D3DFMT_YV12, 6, 3).is_some();
    let (v, u) = (yv12.yv12_v_offset(5, 3), yv12.yv12_u_offset(5, 3));
    let (said, number) = (reply(odd, "stands", 14), number(odd, 14));
    println!(
        "P11 YV12 6 x 4: V of (5,3) at {v}, U at {u}; 6 x 3 {said} | {v} {u}; {number} 0 0 0 0"
    );
}

fn refusal_rows() {
    let nv12 = [10922, 10923].map(|rows| planar_yuv_layout(D3DFMT_NV12, 6, rows).is_some());
    let said = nv12.map(|stands| reply(stands, "stands", 14));
    let numbers = nv12.map(|stands| number(stands, 14));
    println!(
        "NV12 of 10922 rows {}, of 10923 {} | {} {}",
        said[0], said[1], numbers[0], numbers[1]
    );

    let yuy2 = [4, 3].map(|length| {
        let texel: Option<[u8; 4]> = convert_texel(D3DFMT_A8R8G8B8, &vec![0; length], D3DFMT_YUY2);
        texel.is_some()
    });
    let said = yuy2.map(|converts| reply(converts, "converts", 3));
    let numbers = yuy2.map(|converts| number(converts, 3));
    println!(
        "a one-texel YUY2 row of 4 bytes {}, of 3 {} | {} {}",
        said[0], said[1], numbers[0], numbers[1]
    );

    let planes = [0, 6].map(|alignment| PlaneLayout::new(1, 1, alignment).is_some());
    let said = planes.map(|stands| reply(stands, "stands", 7));
    let numbers = planes.map(|stands| number(stands, 7));
    println!(
        "plane alignment 0 {}, 6 {} | {} {} 0 0 0 0",
        said[0], said[1], numbers[0], numbers[1]
    );
}
