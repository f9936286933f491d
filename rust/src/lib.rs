//! Pixel conversion, planar YUV layouts, colour fills and depth planes of Direct3D 9.
//!
//! This crate is a safe interface to `libwentuqis.a`, an altered version of parts of
//! [mtld3d](https://github.com/athei/mtld3d): a port to the verified language Rattle, in which each
//! of the library's calls is proved to give the defined reply and bytes. It is not the original
//! software; the file NOTICE has the original's licence, docs/DIFFERENCES.md of the repository what
//! differs, and docs/RULES.md there the rules of every call.
//!
//! This crate itself is tested, not proved. Plain Rust are the texts of [`Refused`], the constants
//! of [`YuvSet`](pixel_convert::YuvSet), which a test holds to the library's sets, and all methods
//! of [`PlanarYuvLayout`](planar_yuv::PlanarYuvLayout) (`luma_offset`, `nv12_uv_offset`,
//! `yv12_v_offset`, `yv12_u_offset`, `contains` and the numbers of the layout) and of
//! [`PackedDepth`](depth_texture::PackedDepth) (`bytes_per_pixel` and the others).
//!
//! Modules, names, arguments and replies are those of the original, but that six more sources
//! [convert](pixel_convert), that YUV converts
//! [by other numbers](pixel_convert::convert_region_with_set) too, that a sample of it converts
//! [by tables](stretch_rect::yuv_to_rgb8_by_tables) too, and that numbers above 2^-25 and below
//! 2^-24 are no zeros [in binary16](convert::f32_to_f16_bits). Its callers compile as they are but
//! for two things: `can_convert`, `can_convert_update` and `planar_yuv_layout` are no `const fn`, and
//! some `pub` items are left out (`PackedDepth::decode` and `encode`, and what has to do with Metal);
//! README.md of the repository lists them. New beside them is [`pixel_convert::convert`], of a
//! [`Region`](pixel_convert::Region) that says by side where its texels lie, also in a picture that is
//! [stored bottom row first](pixel_convert::Side::bottom_up). Beside each call of the original that can
//! refuse stands a `try_` form. Both answer [`Refused`]: the reason as [`Refusal`],
//! and a text that says what to mend. A refused call leaves every byte that it was lent, and no call
//! reads or writes outside what it was lent. A reply without a name, which only an archive of another
//! version gives, panics, but in the forms that answer `bool`.
//!
//! The build links the archive from the folder in `WENTUQIS_LIB_DIR`, for any target, else from
//! `target/staticlib` of the repository, where `make library` writes it. For x86-64 it is made at
//! level v2: a machine without SSE4.2 gets an illegal instruction.
//!
//! Without its default feature `std` the crate is `no_std`, and needs an allocator (`alloc`). The
//! interface is the same.
//!
//! ```
//! use wentuqis::format::{D3DFMT_A8R8G8B8, D3DFMT_YUY2};
//! use wentuqis::pixel_convert::{Region, Side, YuvSet, convert};
//!
//! // Two texels of a camera frame, black and white, into a row of a screen.
//! let frame = [16, 128, 235, 128];
//! let mut screen = [0; 8];
//! let region = Region {
//!     source: Side { pitch: 4, ..Side::default() },
//!     destination: Side { pitch: 8, ..Side::default() },
//!     ..Region::new(2, 1)
//! };
//! convert(&mut screen, D3DFMT_A8R8G8B8, &frame, D3DFMT_YUY2, &region, &YuvSet::BT601)?;
//! assert_eq!(screen, [1, 0, 1, 255, 255, 254, 255, 255]);
//! # Ok::<(), wentuqis::Refused>(())
//! ```

#![cfg_attr(not(feature = "std"), no_std)]
#![deny(missing_docs)]
#![deny(unsafe_code)]

extern crate alloc;

pub mod convert;
pub mod depth_texture;
#[allow(unsafe_code)]
mod ffi;
pub mod format;
pub mod pixel_convert;
pub mod planar_yuv;
mod refusal;
mod shapes;
pub mod stretch_rect;

pub use refusal::{Refusal, Refused, UnknownRefusal};

/// Its examples are run as tests.
#[cfg(doctest)]
#[doc = include_str!("../README.md")]
struct Readme;
