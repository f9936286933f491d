//! The worked table (docs/RULES.md, Worked table), row by row: P1 to P11, then the rows without a mark.

mod common;

use common::{converted, refuses, region};
use wentuqis::Refusal;
use wentuqis::convert::{d3dcolor_fill_pixel_bytes, f32_to_f16_bits};
use wentuqis::depth_texture::{PackedDepth, PlaneLayout};
use wentuqis::format::*;
use wentuqis::planar_yuv::{planar_yuv_layout, try_planar_yuv_layout};
use wentuqis::stretch_rect::yuv_to_rgb8;

/// One texel converted.
fn texel(dst_format: u32, dst_bytes: usize, src: &[u8], src_format: u32) -> Vec<u8> {
    let region = region(1, 1, src.len(), dst_bytes);
    converted(dst_bytes, dst_format, src, src_format, &region)
}

/// The byte that a channel of a wide format becomes.
fn wide_channel(channel: &[u8], src_format: u32) -> u8 {
    let texel = texel(D3DFMT_A8R8G8B8, 4, &channel.repeat(4), src_format);
    assert!(texel.iter().all(|byte| *byte == texel[0]));
    texel[0]
}

#[test]
fn p1_black() {
    assert_eq!(yuv_to_rgb8(16, 128, 128), (1, 0, 1));
}

#[test]
fn p2_white() {
    assert_eq!(yuv_to_rgb8(235, 128, 128), (255, 254, 255));
}

#[test]
fn p3_luminance_of_pure_colours() {
    for (texel_bytes, luminance) in [([0, 0, 255], 54), ([0, 255, 0], 182), ([255, 0, 0], 18)] {
        assert_eq!(
            texel(D3DFMT_L8, 1, &texel_bytes, D3DFMT_R8G8B8),
            [luminance]
        );
    }
}

#[test]
fn p4_red_of_r5g6b5() {
    let red = texel(D3DFMT_A8R8G8B8, 4, &[0x00, 0xf8], D3DFMT_R5G6B5);
    assert_eq!(red, [0x00, 0x00, 0xff, 0xff]);
}

#[test]
fn p5_fills() {
    for (format, word) in [
        (D3DFMT_R5G6B5, 0xadfd_u16),
        (D3DFMT_A1R5G5B5, 0xd6fd),
        (D3DFMT_A4R4G4B4, 0xdabe),
    ] {
        let fill = d3dcolor_fill_pixel_bytes(0xdead_beef, format);
        assert_eq!(fill, Some(word.to_le_bytes().to_vec()));
    }
}

#[test]
fn p6_sixteen_bits() {
    for (code, byte) in [(32767_u16, 127), (32768, 128)] {
        assert_eq!(wide_channel(&code.to_le_bytes(), D3DFMT_A16B16G16R16), byte);
    }
}

#[test]
fn p7_half_as_float() {
    assert_eq!(
        wide_channel(&0.5_f32.to_le_bytes(), D3DFMT_A32B32G32R32F),
        128
    );
}

#[test]
fn p8_largest_binary16() {
    assert_eq!(f32_to_f16_bits(65519.0), 0x7bff);
    assert_eq!(f32_to_f16_bits(65520.0), 0x7c00);
}

#[test]
fn p9_half_as_depth() {
    for (format, packed) in [
        (PackedDepth::D16, 32768_u32),
        (PackedDepth::D24X8, 8_388_608),
        (PackedDepth::D24S8, 8_388_608 << 8),
    ] {
        let layout = PlaneLayout::new(1, 1, 4).unwrap();
        let mut pixel = vec![0; format.bytes_per_pixel()];
        let pitch = pixel.len();
        assert!(layout.pack(&format, &0.5_f32.to_le_bytes(), &[0; 4], &mut pixel, pitch));
        assert_eq!(pixel, packed.to_le_bytes()[..pitch]);
    }
}

#[test]
fn p10_nv12_of_6_by_3() {
    let layout = planar_yuv_layout(D3DFMT_NV12, 6, 3).unwrap();
    assert_eq!((layout.pitch(), layout.total_bytes()), (8, 40));
    assert_eq!(layout.nv12_uv_offset(5, 2), 36);
}

#[test]
fn p11_yv12_of_6_by_4() {
    let layout = planar_yuv_layout(D3DFMT_YV12, 6, 4).unwrap();
    assert_eq!(layout.yv12_v_offset(5, 3), 38);
    assert_eq!(layout.yv12_u_offset(5, 3), 46);
    let refused = try_planar_yuv_layout(D3DFMT_YV12, 6, 3).unwrap_err();
    assert_eq!(refused.number(), 14);
}

#[test]
fn nv12_of_most_rows() {
    assert!(planar_yuv_layout(D3DFMT_NV12, 6, 10922).is_some());
    let refused = try_planar_yuv_layout(D3DFMT_NV12, 6, 10923).unwrap_err();
    assert_eq!(refused.number(), 14);
}

#[test]
fn one_texel_of_yuy2() {
    let black = texel(D3DFMT_A8R8G8B8, 4, &[16, 128, 16, 128], D3DFMT_YUY2);
    assert_eq!(black, [1, 0, 1, 255]);
    let one = region(1, 1, 4, 4);
    refuses(
        Refusal::SourceOutside,
        4,
        D3DFMT_A8R8G8B8,
        3,
        D3DFMT_YUY2,
        &one,
    );
}

#[test]
fn plane_alignments() {
    assert!(PlaneLayout::new(5, 3, 0).is_some());
    assert_eq!(PlaneLayout::try_new(5, 3, 6).unwrap_err().number(), 7);
}
