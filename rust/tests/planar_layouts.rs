//! Planar layouts: refusal 14 at every limit, and where planes stand.

use wentuqis::Refusal;
use wentuqis::format::*;
use wentuqis::planar_yuv::{
    planar_yuv_layout, planar_yuv_layout_from_pitch, try_planar_yuv_layout,
    try_planar_yuv_layout_from_pitch,
};

#[track_caller]
fn refuses_size(format: u32, width: u32, height: u32) {
    let refused = try_planar_yuv_layout(format, width, height).unwrap_err();
    assert_eq!(
        (refused.refusal, refused.number()),
        (Refusal::NoPlanarLayout, 14)
    );
    assert!(planar_yuv_layout(format, width, height).is_none());
}

#[track_caller]
fn refuses_pitch(format: u32, pitch: usize, luma_rows: usize) {
    let refused = try_planar_yuv_layout_from_pitch(format, pitch, luma_rows).unwrap_err();
    assert_eq!(
        (refused.refusal, refused.number()),
        (Refusal::NoPlanarLayout, 14)
    );
    assert!(planar_yuv_layout_from_pitch(format, pitch, luma_rows).is_none());
}

#[test]
fn numbers_of_a_layout() {
    for (format, width, height, numbers) in [
        (D3DFMT_NV12, 1, 1, (4, 1, 1, 8)),
        (D3DFMT_NV12, 6, 3, (8, 3, 2, 40)),
        (D3DFMT_YV12, 6, 4, (8, 4, 2, 48)),
        (D3DFMT_NV12, 16384, 10922, (16384, 10922, 5461, 268_419_072)),
        (D3DFMT_YV12, 16381, 10922, (16384, 10922, 5461, 268_419_072)),
    ] {
        let layout = try_planar_yuv_layout(format, width, height).unwrap();
        let found = (
            layout.pitch(),
            layout.luma_rows(),
            layout.chroma_rows(),
            layout.total_bytes(),
        );
        assert_eq!(found, numbers);
        assert_eq!(layout.storage_rows(), numbers.1 + numbers.2);
        let (pitch, rows) = (numbers.0 as usize, numbers.1 as usize);
        assert_eq!(
            planar_yuv_layout_from_pitch(format, pitch, rows),
            Some(layout)
        );
    }
}

#[test]
fn planes_fill_the_frame_without_overlap() {
    for (format, pitch, rows) in [
        (D3DFMT_NV12, 10, 5),
        (D3DFMT_YV12, 10, 6),
        (D3DFMT_YV12, 2, 2),
    ] {
        let layout = planar_yuv_layout_from_pitch(format, pitch, rows).unwrap();
        let mut used = vec![0; layout.total_bytes()];
        for (x, y) in (0..rows).flat_map(|y| (0..pitch).map(move |x| (x, y))) {
            assert!(layout.contains(x, y));
            used[layout.luma_offset(x, y)] += 1;
            if x % 2 == 0 && y % 2 == 0 {
                let (u, v) = if format == D3DFMT_NV12 {
                    (layout.nv12_uv_offset(x, y), layout.nv12_uv_offset(x, y) + 1)
                } else {
                    (layout.yv12_u_offset(x, y), layout.yv12_v_offset(x, y))
                };
                used[u] += 1;
                used[v] += 1;
            }
        }
        assert!(used.iter().all(|uses| *uses == 1));
        assert!(!layout.contains(pitch, 0) && !layout.contains(0, rows));
    }
}

#[test]
fn sizes_without_a_layout() {
    for format in [D3DFMT_NV12, D3DFMT_YV12] {
        for (width, height) in [
            (0, 2),
            (2, 0),
            (16385, 2),
            (u32::MAX, 2),
            (2, 10923),
            (2, 10924),
            (2, 16384),
            (2, u32::MAX),
        ] {
            refuses_size(format, width, height);
        }
    }
    refuses_size(D3DFMT_YV12, 6, 3);
    refuses_size(D3DFMT_YUY2, 6, 4);
    refuses_size(0, 6, 4);
    refuses_size(u32::MAX, 6, 4);
}

#[test]
fn pitches_without_a_layout() {
    for format in [D3DFMT_NV12, D3DFMT_YV12] {
        for (pitch, rows) in [
            (0, 2),
            (1, 2),
            (16383, 2),
            (16386, 2),
            (usize::MAX, 2),
            (1 << 32 | 8, 2),
            (8, 0),
            (8, 10924),
            (8, 1 << 32 | 2),
            (8, usize::MAX),
        ] {
            refuses_pitch(format, pitch, rows);
        }
    }
    refuses_pitch(D3DFMT_YV12, 8, 3);
    refuses_pitch(D3DFMT_A8R8G8B8, 8, 4);
}
