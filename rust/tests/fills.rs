//! Fills (refusal 5), splatting, binary16 and the numbers of a colour.

mod common;

use common::bytes;
use wentuqis::Refusal;
use wentuqis::convert::{
    d3dcolor_fill_pixel_bytes, d3dcolor_to_rgba_f32, f32_to_f16_bits, splat_pixel_pattern,
    try_d3dcolor_fill_pixel_bytes,
};
use wentuqis::format::*;

/// Alpha 0x80, red 0x40, green 0xc0, blue 0x01.
const COLOUR: u32 = 0x8040_c001;

#[test]
fn fills_of_every_format() {
    for (format, expected) in [
        (D3DFMT_A8R8G8B8, vec![0x01, 0xc0, 0x40, 0x80]),
        (D3DFMT_X8R8G8B8, vec![0x01, 0xc0, 0x40, 0x80]),
        (D3DFMT_A8B8G8R8, vec![0x40, 0xc0, 0x01, 0x80]),
        (D3DFMT_X8B8G8R8, vec![0x40, 0xc0, 0x01, 0x80]),
        (D3DFMT_R5G6B5, vec![0x00, 0x46]),
        (D3DFMT_A1R5G5B5, vec![0x00, 0xa3]),
        (D3DFMT_X1R5G5B5, vec![0x00, 0xa3]),
        (D3DFMT_A4R4G4B4, vec![0xc0, 0x84]),
        (D3DFMT_A8, vec![0x80]),
        (D3DFMT_L8, vec![151]),
        (D3DFMT_V8U8, vec![32, 96]),
        (D3DFMT_Q8W8V8U8, vec![32, 96, 0, 64]),
        (D3DFMT_G16R16, vec![0x40, 0x40, 0xc0, 0xc0]),
        (
            D3DFMT_A16B16G16R16,
            vec![0x40, 0x40, 0xc0, 0xc0, 0x01, 0x01, 0x80, 0x80],
        ),
        (D3DFMT_R32F, (64.0_f32 / 255.0).to_le_bytes().to_vec()),
    ] {
        let fill = try_d3dcolor_fill_pixel_bytes(COLOUR, format).unwrap();
        assert_eq!(fill.as_slice(), expected);
        assert_eq!(fill.length as usize, expected.len());
        assert!(
            fill.bytes[fill.length as usize..]
                .iter()
                .all(|byte| *byte == 0)
        );
        assert_eq!(d3dcolor_fill_pixel_bytes(COLOUR, format), Some(expected));
    }
}

#[test]
fn ten_bit_and_wide_fills() {
    let word = |format| {
        let bytes = d3dcolor_fill_pixel_bytes(COLOUR, format).unwrap();
        u32::from_le_bytes(bytes.try_into().unwrap())
    };
    let (alpha, red, green, blue) = (2, 257, 770, 4);
    assert_eq!(
        word(D3DFMT_A2R10G10B10),
        alpha << 30 | red << 20 | green << 10 | blue
    );
    assert_eq!(
        word(D3DFMT_A2B10G10R10),
        alpha << 30 | blue << 20 | green << 10 | red
    );
    let floats = try_d3dcolor_fill_pixel_bytes(COLOUR, D3DFMT_A32B32G32R32F).unwrap();
    let rgba = d3dcolor_to_rgba_f32(COLOUR).map(f32::to_le_bytes);
    assert_eq!(floats.bytes, *rgba.as_flattened());
    assert_eq!(floats.length, 16);
}

#[test]
fn formats_without_a_fill() {
    for format in [
        0,
        D3DFMT_R8G8B8,
        D3DFMT_A8L8,
        D3DFMT_D16,
        D3DFMT_D24S8,
        D3DFMT_L16,
        D3DFMT_YUY2,
        D3DFMT_NV12,
        u32::MAX,
    ] {
        let refused = try_d3dcolor_fill_pixel_bytes(COLOUR, format).unwrap_err();
        assert_eq!((refused.refusal, refused.number()), (Refusal::NoFill, 5));
        assert_eq!(d3dcolor_fill_pixel_bytes(COLOUR, format), None);
    }
}

#[test]
fn splatting() {
    for len in [0, 1, 2, 3, 4, 17, 64, 1000] {
        for n in [1, 2, 3, 4, 16, 70] {
            let (mut dst, pixel) = (bytes(len), bytes(n));
            splat_pixel_pattern(&mut dst, &pixel);
            assert!((0..len).all(|i| dst[i] == pixel[i % n]));
        }
        let mut dst = bytes(len);
        splat_pixel_pattern(&mut dst, &[]);
        assert_eq!(dst, bytes(len));
    }
}

#[test]
fn binary16() {
    for (value, bits) in [
        (0.0, 0x0000),
        (-0.0, 0x8000),
        (1.0, 0x3c00),
        (-2.0, 0xc000),
        (65504.0, 0x7bff),
        (f32::INFINITY, 0x7c00),
        (f32::NEG_INFINITY, 0xfc00),
        (f32::MAX, 0x7c00),
        (f32::from_bits(0x7f80_0001), 0x7e00),
        (f32::from_bits(0xffff_ffff), 0xfe00),
        (2.0_f32.powi(-14), 0x0400),
        (2.0_f32.powi(-24), 0x0001),
        // above 2^-25 and below 2^-24: the smallest subnormal
        (2.0_f32.powi(-24) * 0.75, 0x0001),
        (2.0_f32.powi(-24) * -0.75, 0x8001),
        (f32::from_bits(0x337f_ffff), 0x0001),
        (f32::from_bits(0xb300_0001), 0x8001),
        (f32::from_bits(0x3300_0001), 0x0001),
        (f32::from_bits(0x32ff_ffff), 0x0000),
        (-2.0_f32.powi(-26), 0x8000),
        (f32::from_bits(0x0000_0001), 0x0000),
        (f32::from_bits(0x807f_ffff), 0x8000),
        // ties go to the even code
        (2.0_f32.powi(-25), 0x0000),
        (-2.0_f32.powi(-25), 0x8000),
        (2.0_f32.powi(-24) * 1.5, 0x0002),
        (1.0 + 2.0_f32.powi(-11), 0x3c00),
        (1.0 + 3.0 * 2.0_f32.powi(-11), 0x3c02),
        (2.0_f32.powi(-24) * 2.5, 0x0002),
    ] {
        assert_eq!(f32_to_f16_bits(value), bits, "{value}");
    }
}

#[test]
fn numbers_of_a_colour() {
    let expected = [64.0, 192.0, 1.0, 128.0].map(|channel: f32| channel / 255.0);
    assert_eq!(d3dcolor_to_rgba_f32(COLOUR), expected);
}
