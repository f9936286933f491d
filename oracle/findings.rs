//! Lent buffers, what is found wrong with a call, and how both are told.

use std::fmt::{Debug, Write};

use crate::{
    calls::{ConvertCall, DepthCall},
    common::is_upright,
    rules::{self, Kind},
};

/// A buffer that is lent: the middle of a block, between guards, or a block of its own.
pub struct Lent<T> {
    block: Box<[T]>,
    before: usize,
    after: usize,
}

/// What guards are made of.
const GUARD: u8 = 0xa5;

impl<T: Copy + PartialEq + From<u8>> Lent<T> {
    /// A block of its own on the heap, past whose end valgrind sees any access.
    pub fn exact(content: &[T]) -> Self {
        Self {
            block: content.into(),
            before: 0,
            after: 0,
        }
    }

    /// Between guards, at an address of any alignment.
    pub fn guarded(content: &[T]) -> Self {
        let (before, after) = (64 + content.len() % 8, 64);
        let guard = |length| vec![T::from(GUARD); length];
        Self {
            block: [&guard(before)[..], content, &guard(after)].concat().into(),
            before,
            after,
        }
    }

    pub fn lend(&mut self) -> &mut [T] {
        let end = self.block.len() - self.after;
        &mut self.block[self.before..end]
    }

    pub fn content(&self) -> &[T] {
        &self.block[self.before..self.block.len() - self.after]
    }

    fn guards_kept(&self) -> bool {
        let end = self.block.len() - self.after;
        let mut guards = self.block[..self.before].iter().chain(&self.block[end..]);
        guards.all(|it| *it == T::from(GUARD))
    }
}

/// What was found wrong with one call, a line each.
#[derive(Default)]
pub struct Findings(pub Vec<String>);

impl Findings {
    pub fn reply(&mut self, ours: u32, defined: u32) {
        self.equal("reply", ours, "by the rules", defined);
    }

    /// A value that ours must equal.
    pub fn equal<T: PartialEq + Debug>(&mut self, name: &str, ours: T, whose: &str, other: T) {
        if ours != other {
            let line = format!("{name}: ours {ours:?}, {whose} {other:?}");
            self.0.push(line);
        }
    }

    /// The same, told in hexadecimal.
    pub fn equal_bits<T: PartialEq + Debug>(&mut self, name: &str, ours: T, whose: &str, other: T) {
        if ours != other {
            let line = format!("{name}: ours {ours:02X?}, {whose} {other:02X?}");
            self.0.push(line);
        }
    }

    /// The bytes that were lent are still there.
    pub fn kept(&mut self, name: &str, lent: &Lent<u8>, before: &[u8]) {
        self.guards(name, lent);
        if let Some(at) = first_difference(lent.content(), before) {
            let (now, was) = (lent.content()[at], before[at]);
            let line = format!("{name} byte {at} changed: {was:02X} before, {now:02X} after");
            self.0.push(line);
        }
    }

    /// The bytes that ours must equal; the place of the first that does not.
    pub fn same(
        &mut self,
        name: &str,
        lent: &Lent<u8>,
        whose: &str,
        other: &[u8],
        before: &[u8],
    ) -> Option<usize> {
        self.guards(name, lent);
        let at = first_difference(lent.content(), other)?;
        let (ours, theirs, was) = (lent.content()[at], other[at], before[at]);
        self.0.push(format!(
            "{name} byte {at}: ours {ours:02X}, {whose} {theirs:02X}, {was:02X} before"
        ));
        Some(at)
    }

    /// Whether a conversion is accepted and, if it is, its destination.
    pub fn converted(
        &mut self,
        call: &ConvertCall,
        reply: u32,
        dst: &Lent<u8>,
        whose: &str,
        (accepted, bytes): &(bool, Vec<u8>),
    ) {
        self.equal("accepted", reply == 0, whose, *accepted);
        if reply == 0 && *accepted {
            let at = self.same("dst", dst, whose, bytes, &call.dst);
            self.0.extend(at.and_then(|at| call.texel_text(at)));
        }
    }

    pub fn guards<T: Copy + PartialEq + From<u8>>(&mut self, name: &str, lent: &Lent<T>) {
        if !lent.guards_kept() {
            self.0.push(format!("bytes beside {name} were written"));
        }
    }
}

fn first_difference(a: &[u8], b: &[u8]) -> Option<usize> {
    if a == b {
        return None;
    }
    a.iter().zip(b).position(|(a, b)| a != b)
}

/// Buffers up to this length are shown whole.
const SHOWN: usize = 128;

/// A buffer's length, and its bytes unless they are many.
pub fn bytes_text(bytes: &[u8]) -> String {
    let mut text = format!("{} bytes:", bytes.len());
    for byte in bytes.iter().take(SHOWN) {
        let _ = write!(text, " {byte:02X}");
    }
    if bytes.len() > SHOWN {
        text.push_str(" ..");
    }
    text
}

/// A format's name, or its code.
pub fn format_text(code: u32) -> String {
    rules::find(code).map_or_else(|| format!("code {code}"), |it| it.name.to_string())
}

impl ConvertCall {
    pub fn text(&self) -> String {
        let (from, to) = (format_text(self.src_format), format_text(self.dst_format));
        let (src, dst) = (bytes_text(&self.src), bytes_text(&self.dst));
        let (name, region) = (self.name(), self.region);
        let set = self.set.map(|set| format!("\n    {set:?}"));
        let set = set.unwrap_or_default();
        format!("{name}: {from} to {to}, {region:?}{set}\n    src of {src}\n    dst of {dst}")
    }

    /// The source bytes of the texel that has byte `at` of the destination, where the source is
    /// too long to be shown whole.
    pub fn texel_text(&self, at: usize) -> Option<String> {
        let (from, to) = (rules::find(self.src_format)?, rules::find(self.dst_format)?);
        let region = &self.region;
        let is_shown = self.src.len() <= SHOWN || region.depth != 1;
        if is_shown || from.kind == Kind::PlanarYuv || !is_upright(region) {
            return None;
        }
        let [src_pitch, dst_pitch] =
            [region.source.pitch, region.destination.pitch].map(|it| it as usize);
        let y = at.checked_div(dst_pitch)?;
        let x = at % dst_pitch / to.bytes;
        let row = y.checked_sub(region.destination.y as usize)?;
        let column = x.checked_sub(region.destination.x as usize)?;
        let source_x = region.source.x as usize + column;
        let (offset, bytes) = match from.kind {
            Kind::PackedYuv => (source_x / 2 * 4, 4),
            _ => (source_x * from.bytes, from.bytes),
        };
        let start = (region.source.y as usize + row) * src_pitch + offset;
        let texel = bytes_text(self.src.get(start..start + bytes)?);
        Some(format!("row {row}, column {column}: source {texel}"))
    }
}

impl DepthCall {
    pub fn text(&self, name: &str) -> String {
        let (format, planes, pitch) = (self.format, self.planes, self.packed_pitch);
        let [packed, depth, stencil] =
            [&self.packed, &self.depth, &self.stencil].map(|it| bytes_text(it));
        format!(
            "{name}: format {format}, {planes:?}, packed pitch {pitch}\n    packed of {packed}\n    \
             depth of {depth}\n    stencil of {stencil}"
        )
    }

    /// A pixel's packed bytes and depth, where these are too many to be shown whole.
    pub fn pixel_text(&self, row: usize, column: usize) -> Option<String> {
        let bytes = rules::packed_bytes(self.format)?;
        let packed = row * self.packed_pitch + column * bytes;
        let depth = row * self.planes.depth_pitch + column * 4;
        if self.depth.len() <= SHOWN {
            return None;
        }
        let packed = bytes_text(self.packed.get(packed..packed + bytes)?);
        let depth = bytes_text(self.depth.get(depth..depth + 4)?);
        Some(format!(
            "row {row}, column {column}: packed {packed}, depth {depth}"
        ))
    }
}
