//! One check for each call of the port: the reply against the rules (rules.rs); acceptance and every
//! accepted byte against the original, or stills.rs for the pairs that it refuses, or sets.rs for
//! sets of YUV numbers (answers.rs), with BT601 against both, or by_texel.rs and sets.rs for regions
//! with a start or a negative pitch; the reply to every conversion, and the bytes of one of few
//! texels, against the reading in whole_numbers.rs too; the binary16 code of every number, not of a
//! NaN, against the C compiler's; that a refusal leaves every lent byte, that what is only read stays,
//! and that nothing beside a lent buffer is written.
//!
//! The original is not asked where its 32-bit coordinates or 64-bit offsets would wrap, of plane
//! layouts with refusal 10 (docs/DIFFERENCES.md), and where it would not end soon.
#![allow(dead_code)]

use std::{
    collections::BTreeMap,
    fmt::Write,
    panic::{AssertUnwindSafe, catch_unwind},
    process::exit,
    sync::{
        Mutex, MutexGuard, PoisonError,
        atomic::{AtomicU32, Ordering},
    },
    thread,
    time::{Duration, Instant},
};

use original::{convert, pixel_convert, stretch_rect};

use crate::{
    answers,
    calls::{ConvertCall, DepthCall},
    common::{FillPixel, FlatRegion, PlanarYuvLayout, Planes, Region, Side, YuvSet},
    findings::{Findings, Lent, bytes_text, format_text},
    port,
    rules::{self, AnyRegion, Conversion, Layout},
    sets, stills, whole_numbers,
};

/// Calls that pass over more texels than this are made only where a refusal or an empty region
/// ends them at once.
const MANY: u128 = 1 << 25;

/// So many texels are looked at to see that the original stops early.
const LOOKED_AT: usize = 1 << 12;

/// A call over many texels that has not replied after this time goes through them.
const PATIENCE: Duration = Duration::from_secs(10);

/// The call over many texels that is under way.
static UNDER_WAY: Mutex<Option<(Instant, String)>> = Mutex::new(None);

fn watched() -> MutexGuard<'static, Option<(Instant, String)>> {
    UNDER_WAY.lock().unwrap_or_else(PoisonError::into_inner)
}

/// From now on a call over many texels that does not reply in time ends the program, with status 1.
pub fn watch() {
    thread::spawn(|| {
        loop {
            thread::sleep(Duration::from_secs(1));
            if let Some((start, call)) = &*watched()
                && start.elapsed() > PATIENCE
            {
                println!("  {call}\n    no reply after {PATIENCE:?}");
                exit(1);
            }
        }
    });
}

/// So many differences of a run are kept in full.
const KEPT: usize = 5;

/// What answers.rs gave: not asked, a panic, or an answer.
enum Answer<T> {
    Unasked,
    Panicked,
    Gave(T),
}

fn ask<T>(asked: bool, call: impl FnOnce() -> T) -> Answer<T> {
    if !asked {
        return Answer::Unasked;
    }
    catch_unwind(AssertUnwindSafe(call)).map_or(Answer::Panicked, Answer::Gave)
}

/// Who answers: the rules, or the original where it is linked.
const fn whose(by_rules: bool) -> &'static str {
    if by_rules || original::BY_RULES {
        "by the rules"
    } else {
        "the original's"
    }
}

/// Who answers where the rules do not go beyond the original.
const ITS: &str = whose(false);

/// A layout that a call hands back.
trait HandedBack: Copy + PartialEq + From<u8> {
    /// Its numbers, in the order of its fields.
    fn numbers(self) -> [u64; 4];
}

impl HandedBack for Planes {
    fn numbers(self) -> [u64; 4] {
        [
            self.width,
            self.height,
            self.depth_pitch,
            self.stencil_pitch,
        ]
        .map(|it| it as u64)
    }
}

impl From<u8> for Planes {
    fn from(byte: u8) -> Self {
        let number = byte.into();
        Self {
            width: number,
            height: number,
            depth_pitch: number,
            stencil_pitch: number,
        }
    }
}

impl HandedBack for PlanarYuvLayout {
    fn numbers(self) -> [u64; 4] {
        [
            self.pitch,
            self.luma_rows,
            self.chroma_rows,
            self.total_bytes,
        ]
        .map(|it| it as u64)
    }
}

impl From<u8> for PlanarYuvLayout {
    fn from(byte: u8) -> Self {
        let number = byte.into();
        Self {
            pitch: number,
            luma_rows: number,
            chroma_rows: number,
            total_bytes: number,
        }
    }
}

impl From<u8> for FillPixel {
    fn from(byte: u8) -> Self {
        Self {
            bytes: [byte; 16],
            length: byte.into(),
        }
    }
}

impl From<u8> for YuvSet {
    fn from(byte: u8) -> Self {
        rules::set([byte.into(); 7])
    }
}

/// A call of the port that gives red, green and blue of a sample.
type ColourCall = fn(u8, u8, u8, &mut [u8; 3]);

/// These calls by name; the original's `yuv_to_rgb8` answers for each.
const COLOURS: [(&str, ColourCall); 2] = [
    ("yuv_to_rgb8", |y, u, v, rgb| {
        port::yuv_to_rgb8(y, u, v, rgb)
    }),
    ("yuv_to_rgb8_by_tables", |y, u, v, rgb| {
        port::yuv_to_rgb8_by_tables(y, u, v, rgb);
    }),
];

/// The port's reply to a conversion that is lent these buffers.
fn port_reply(call: &ConvertCall, dst: &mut [u8], src: &[u8]) -> u32 {
    let (to, from, region) = (call.dst_format, call.src_format, &call.region);
    match &call.set {
        Some(set) => port::convert_region_with_set(dst, to, src, from, region, set),
        None => port::convert_region(dst, to, src, from, region),
    }
}

/// Whose the answers of whole_numbers.rs are.
const READER: &str = "by whole numbers";

/// Regions of more texels are read again by whole_numbers.rs only as far as the reply.
const READ_AGAIN: u128 = 1 << 8;

/// Holds a reply, and the bytes of a region of few texels, to the reading in whole numbers.
fn read_again(call: &ConvertCall, reply: u32, dst: &Lent<u8>, findings: &mut Findings) {
    let (from, to, region) = (call.src_format, call.dst_format, whole_region(&call.region));
    let set = call.set.map_or(whole_numbers::BT601, |set| whole_set(&set));
    if reply != 0 || region.texels() > READ_AGAIN {
        let lengths = (call.src.len(), call.dst.len());
        let again = whole_numbers::reply(lengths.0, from, lengths.1, to, &region, &set);
        findings.equal("reply", reply, READER, again);
        return;
    }
    let mut bytes = call.dst.clone();
    let again = whole_numbers::convert(&mut bytes, to, &call.src, from, &region, &set);
    findings.equal("reply", reply, READER, again);
    if again == 0 {
        let at = findings.same("dst", dst, READER, &bytes, &call.dst);
        findings.0.extend(at.and_then(|at| call.texel_text(at)));
    }
}

/// A region as whole_numbers.rs declares it.
fn whole_region(region: &Region) -> whole_numbers::Region {
    let side = |side: &Side| whole_numbers::Side {
        start: side.start,
        pitch: side.pitch,
        slice_pitch: side.slice_pitch,
        x: side.x,
        y: side.y,
    };
    whole_numbers::Region {
        source: side(&region.source),
        destination: side(&region.destination),
        depth: region.depth,
        width: region.width,
        height: region.height,
    }
}

/// A set likewise.
const fn whole_set(set: &YuvSet) -> whole_numbers::Set {
    whole_numbers::Set {
        luma_gain: set.luma_gain,
        luma_offset: set.luma_offset,
        v_to_red: set.v_to_red,
        u_to_green: set.u_to_green,
        v_to_green: set.v_to_green,
        u_to_blue: set.u_to_blue,
        chroma_centre: set.chroma_centre,
    }
}

/// The checks of one run and what they found.
pub struct Checks {
    guarded: bool,
    /// Calls of the port by name and reply.
    pub replies: BTreeMap<(&'static str, u32), u64>,
    /// Calls whose bytes were held against no answer.
    pub unasked: u64,
    pub differences: u64,
    /// The first differences in full.
    pub first: Vec<String>,
}

impl Checks {
    /// Checks that lend buffers between guards, or else each in a block of its own.
    pub const fn new(guarded: bool) -> Self {
        Self {
            guarded,
            replies: BTreeMap::new(),
            unasked: 0,
            differences: 0,
            first: Vec::new(),
        }
    }

    pub fn calls(&self) -> u64 {
        self.replies.values().sum()
    }

    fn lent<T: Copy + PartialEq + From<u8>>(&self, content: &[T]) -> Lent<T> {
        if self.guarded {
            Lent::guarded(content)
        } else {
            Lent::exact(content)
        }
    }

    fn count(&mut self, call: &'static str, reply: u32, times: u64) {
        *self.replies.entry((call, reply)).or_default() += times;
    }

    fn found(&mut self, findings: Findings, describe: impl FnOnce() -> String) {
        if findings.0.is_empty() {
            return;
        }
        self.differences += 1;
        if self.first.len() < KEPT {
            let mut text = describe();
            for line in findings.0 {
                let _ = write!(text, "\n    {line}");
            }
            self.first.push(text);
        }
    }

    /// The answer, if there is one; a call without is counted, a panic is a finding.
    fn answer<T>(&mut self, answer: Answer<T>, findings: &mut Findings) -> Option<T> {
        match answer {
            Answer::Unasked => {
                self.unasked += 1;
                None
            }
            Answer::Panicked => {
                findings.0.push("answers.rs panics".to_string());
                None
            }
            Answer::Gave(answer) => Some(answer),
        }
    }

    pub fn can_convert(&mut self, src_format: u32, dst_format: u32) {
        let (src, dst) = (src_format, dst_format);
        let mut findings = Findings::default();
        let ours = [
            port::can_convert(src, dst),
            port::can_convert_update(src, dst),
        ];
        let answers = [
            answers::pair(src, dst),
            pixel_convert::can_convert_update(src, dst),
        ];
        let defined = [
            rules::can_convert(src, dst),
            rules::can_convert_update(src, dst),
        ];
        let whose = whose(rules::original_refuses(src, dst));
        findings.equal("replies", ours, whose, answers);
        findings.equal("replies", ours, "by the rules", defined);
        self.count("can_convert", 0, 1);
        self.count("can_convert_update", 0, 1);
        self.found(findings, || {
            format!("can_convert, can_convert_update: {src} to {dst}")
        });
    }

    pub fn convert_region(&mut self, call: &ConvertCall) {
        let conversion = call.conversion();
        let mut findings = Findings::default();
        let Some((reply, dst)) = self.converted(call, &conversion, &mut findings) else {
            return;
        };
        let many = answers::effort(&call.region) > MANY;
        let stops = || !many || conversion.stops_among(LOOKED_AT);
        let asked = answers::can_convert(call, conversion.reply(), stops);
        let answer = ask(asked, || answers::convert(call));
        let by_rules = answers::by_rules(call);
        if let Some(answer) = self.answer(answer, &mut findings) {
            findings.converted(call, reply, &dst, whose(by_rules), &answer);
        }
        if asked && !by_rules && call.set_in_use().is_some() {
            findings.converted(call, reply, &dst, whose(true), &sets::convert(call));
        }
        self.found(findings, || call.text());
    }

    /// The conversion of a flat region, which the crate in rust/ makes one of two sides; the call's own
    /// region counts for nothing. Its pitches may be of 2^63 or more, and the original is asked of them
    /// as they are.
    pub fn convert_flat(&mut self, call: &ConvertCall, flat: &FlatRegion) {
        let call = ConvertCall {
            region: (*flat).into(),
            ..call.clone()
        };
        let conversion = Conversion {
            region: AnyRegion::from(flat),
            ..call.conversion()
        };
        let mut findings = Findings::default();
        let Some((reply, dst)) = self.converted(&call, &conversion, &mut findings) else {
            return;
        };
        let many = answers::effort(&call.region) > MANY;
        let defined = conversion.reply();
        let stops = || !many || conversion.stops_among(LOOKED_AT);
        let fits = || conversion.region.is_empty() || conversion.sums_fit();
        let asked = !answers::beyond(&call) && (matches!(defined, 1 | 2 | 15) || fits() && stops());
        let answer = ask(asked, || answers::convert_flat(&call, flat));
        if let Some(answer) = self.answer(answer, &mut findings) {
            findings.converted(&call, reply, &dst, ITS, &answer);
        }
        self.found(findings, || format!("{flat:?}: {}", call.text()));
    }

    /// An upright picture of whole rows, from the first byte of either buffer on, to one that is stored
    /// bottom row first, and back; then, unless it is planar, from one that is: the rows are each time
    /// those of the upright conversion, padding too.
    pub fn turned_over(&mut self, call: &ConvertCall) {
        self.convert_region(call);
        let Region {
            source,
            destination,
            ..
        } = call.region;
        let over = |side: &Side| Side::bottom_up(side.pitch as u32, call.region.height);
        let rows = |bytes: &[u8], side: &Side| -> Vec<u8> {
            let rows = bytes.rchunks(side.pitch as usize);
            rows.flatten().copied().collect()
        };
        let upright = self.destination_of(call);
        let mut there = call.clone();
        there.region.destination = over(&destination);
        there.dst = rows(&call.dst, &destination);
        let turned = self.destination_of(&there);
        let back = ConvertCall {
            src_format: call.dst_format,
            src: turned.clone(),
            region: Region {
                source: over(&destination),
                ..call.region
            },
            ..call.clone()
        };
        let mut findings = Findings::default();
        let mut found = vec![("there", rows(&turned, &destination))];
        if rules::can_convert(call.dst_format, call.dst_format) {
            found.push(("back", self.destination_of(&back)));
        }
        if !rules::is_planar(call.src_format) {
            let mut from = call.clone();
            from.region.source = over(&source);
            from.src = rows(&call.src, &source);
            found.push(("from there", self.destination_of(&from)));
        }
        for (name, bytes) in found {
            findings.equal_bits(name, bytes, "upright", upright.clone());
        }
        self.found(findings, || format!("turned over: {}", call.text()));
    }

    /// The destination after a call of the port, which is checked too.
    fn destination_of(&mut self, call: &ConvertCall) -> Vec<u8> {
        let mut dst = call.dst.clone();
        let reply = port_reply(call, &mut dst, &call.src);
        let mut findings = Findings::default();
        findings.reply(reply, 0);
        self.found(findings, || call.text());
        self.convert_region(call);
        dst
    }

    /// Makes a call of the port, unless it would not end soon: its reply, which is held to the rules,
    /// and the destination, which is held to what it was if it may not change.
    fn converted(
        &mut self,
        call: &ConvertCall,
        conversion: &Conversion,
        findings: &mut Findings,
    ) -> Option<(u32, Lent<u8>)> {
        let (defined, is_empty) = (conversion.reply(), conversion.region.is_empty());
        let many = answers::effort(&call.region) > MANY;
        if many && defined == 0 && !is_empty {
            return None;
        }
        let (mut dst, src) = (self.lent(&call.dst), self.lent(&call.src));
        if many {
            *watched() = Some((Instant::now(), call.text()));
        }
        let reply = port_reply(call, dst.lend(), src.content());
        if many {
            *watched() = None;
        }
        findings.reply(reply, defined);
        findings.kept("src", &src, &call.src);
        findings.guards("dst", &dst);
        if reply != 0 || is_empty {
            findings.kept("dst", &dst, &call.dst);
        }
        read_again(call, reply, &dst, findings);
        self.count(call.name(), reply, 1);
        Some((reply, dst))
    }

    /// Converts a frame without padding to A8R8G8B8, and holds every byte to its limit: of YUY2 with
    /// a legal set to 1/2 + 1/16384 of the value that the set's own numbers define, of a source that
    /// the original refuses to 1/2 of what the channel means.
    pub fn near(&mut self, call: &ConvertCall) {
        let mut dst = call.dst.clone();
        let reply = port_reply(call, &mut dst, &call.src);
        let mut findings = Findings::default();
        findings.reply(reply, 0);
        let from = rules::find(call.src_format).expect("a source");
        let far = match &call.set {
            Some(set) => first_far([4, 8], &call.src, &dst, |macropixel, texels| {
                sets::near(set, macropixel, texels)
            }),
            None => first_far([from.bytes, 4], &call.src, &dst, |texel, bytes| {
                stills::near(from, texel, bytes)
            }),
        };
        if let Some((texel, bytes)) = far {
            let (texel, bytes) = (bytes_text(texel), bytes_text(bytes));
            let line = format!("past the limit: {texel} give {bytes}");
            findings.0.push(line);
        }
        self.count(call.name(), reply, 1);
        self.unasked += 1;
        self.found(findings, || call.text());
    }

    /// Holds the sets that the library hands back, and the crate's constants, against the rules'.
    pub fn named_sets(&mut self) {
        type SetCall = fn(&mut YuvSet);
        let sets: [(&str, SetCall, YuvSet, YuvSet); 2] = [
            ("bt601", |set| port::bt601(set), YuvSet::BT601, rules::BT601),
            ("bt709", |set| port::bt709(set), YuvSet::BT709, rules::BT709),
        ];
        for (name, call, constant, defined) in sets {
            let mut findings = Findings::default();
            let mut set = self.lent(&[YuvSet::from(0x5a)]);
            call(&mut set.lend()[0]);
            findings.guards("set", &set);
            findings.equal("set", set.content()[0], "by the rules", defined);
            findings.equal("constant", constant, "by the rules", defined);
            self.count(name, 0, 1);
            self.found(findings, || name.to_string());
        }
    }

    pub fn unpack(&mut self, call: &DepthCall) {
        let defined = call.transfer().reply();
        let packed = self.lent(&call.packed);
        let (mut depth, mut stencil) = (self.lent(&call.depth), self.lent(&call.stencil));
        let reply = port::unpack(
            depth.lend(),
            stencil.lend(),
            packed.content(),
            call.packed_pitch,
            call.format,
            &call.planes,
        );
        let mut findings = Findings::default();
        findings.reply(reply, defined);
        findings.kept("packed", &packed, &call.packed);
        if reply != 0 {
            findings.kept("depth", &depth, &call.depth);
            findings.kept("stencil", &stencil, &call.stencil);
        }
        let original = ask(defined != 10, || answers::unpack(call));
        if let Some((accepted, planes)) = self.answer(original, &mut findings) {
            findings.equal("accepted", reply == 0, ITS, accepted);
            if reply == 0 && accepted {
                let at = findings.same("depth", &depth, ITS, &planes.0, &call.depth);
                let pitch = call.planes.depth_pitch;
                findings
                    .0
                    .extend(at.and_then(|at| call.pixel_text(at / pitch, at % pitch / 4)));
                findings.same("stencil", &stencil, ITS, &planes.1, &call.stencil);
            }
        }
        self.count("unpack", reply, 1);
        self.found(findings, || call.text("unpack"));
    }

    pub fn pack(&mut self, call: &DepthCall) {
        let defined = call.transfer().reply();
        let mut packed = self.lent(&call.packed);
        let (depth, stencil) = (self.lent(&call.depth), self.lent(&call.stencil));
        let reply = port::pack(
            packed.lend(),
            call.packed_pitch,
            depth.content(),
            stencil.content(),
            call.format,
            &call.planes,
        );
        let mut findings = Findings::default();
        findings.reply(reply, defined);
        findings.kept("depth", &depth, &call.depth);
        findings.kept("stencil", &stencil, &call.stencil);
        if reply != 0 {
            findings.kept("packed", &packed, &call.packed);
        }
        let original = ask(defined != 10, || answers::pack(call));
        if let Some((accepted, bytes)) = self.answer(original, &mut findings) {
            findings.equal("accepted", reply == 0, ITS, accepted);
            if reply == 0 && accepted {
                let at = findings.same("packed", &packed, ITS, &bytes, &call.packed);
                let pitch = call.packed_pitch;
                let bytes = rules::packed_bytes(call.format).unwrap_or(1);
                let text = at.and_then(|at| call.pixel_text(at / pitch, at % pitch / bytes));
                findings.0.extend(text);
            }
        }
        self.count("pack", reply, 1);
        self.found(findings, || call.text("pack"));
    }

    /// Unpacks, packs the planes into another buffer with another pitch, and holds every pixel
    /// against what it was. For D16 and D24S8.
    pub fn restores(&mut self, call: &DepthCall, mut into: Vec<u8>, pitch: usize) {
        let (mut depth, mut stencil) = (call.depth.clone(), call.stencil.clone());
        let replies = [
            port::unpack(
                &mut depth,
                &mut stencil,
                &call.packed,
                call.packed_pitch,
                call.format,
                &call.planes,
            ),
            port::pack(
                &mut into,
                pitch,
                &depth,
                &stencil,
                call.format,
                &call.planes,
            ),
        ];
        let mut findings = Findings::default();
        findings.equal("replies", replies, "by the rules", [0, 0]);
        let row = call.planes.width * rules::packed_bytes(call.format).unwrap_or(0);
        let restored = (0..call.planes.height).position(|y| {
            let (from, to) = (y * call.packed_pitch, y * pitch);
            call.packed[from..from + row] != into[to..to + row]
        });
        if let Some(y) = restored {
            let line = format!("row {y} is not restored with a pitch of {pitch}");
            findings.0.push(line);
        }
        self.count("unpack, then pack", replies[0].max(replies[1]), 1);
        self.unasked += 1;
        self.found(findings, || call.text("unpack, then pack"));
    }

    pub fn plane_layout(&mut self, width: u32, height: u32, alignment: u32) {
        let defined = rules::plane_layout(width, height, alignment);
        let original = answers::plane_layout(width, height, alignment);
        let call = |layout: &mut Planes| port::plane_layout(width, height, alignment, layout);
        let text = format_args!("width {width}, height {height}, alignment {alignment}");
        self.layout("plane_layout", text, call, defined, original);
    }

    pub fn planar_layout(&mut self, format: u32, width: u32, height: u32) {
        let defined = rules::planar_layout(format, width, height);
        let original = answers::planar_layout(format, width, height);
        let call =
            |layout: &mut PlanarYuvLayout| port::planar_yuv_layout(format, width, height, layout);
        let text = format_args!("{}, width {width}, height {height}", format_text(format));
        self.layout("planar_yuv_layout", text, call, defined, original);
    }

    pub fn planar_layout_from_pitch(&mut self, format: u32, pitch: usize, luma_rows: usize) {
        let defined = rules::planar_layout_from_pitch(format, pitch, luma_rows);
        let original = answers::planar_layout_from_pitch(format, pitch, luma_rows);
        let call = |layout: &mut PlanarYuvLayout| {
            port::planar_yuv_layout_from_pitch(format, pitch, luma_rows, layout)
        };
        let text = format_args!(
            "{}, pitch {pitch}, luma rows {luma_rows}",
            format_text(format)
        );
        self.layout(
            "planar_yuv_layout_from_pitch",
            text,
            call,
            defined,
            original,
        );
    }

    /// A call that hands back a layout, which is held against the rules' and the original's.
    fn layout<T: HandedBack>(
        &mut self,
        call: &'static str,
        text: std::fmt::Arguments,
        ours: impl FnOnce(&mut T) -> u32,
        defined: Layout,
        original: Option<[u64; 4]>,
    ) {
        let mut layout = self.lent(&[T::from(0x5a)]);
        let reply = ours(&mut layout.lend()[0]);
        let mut findings = Findings::default();
        findings.reply(reply, defined.0);
        findings.guards("layout", &layout);
        let numbers = layout.content()[0].numbers();
        findings.equal("layout", numbers, "by the rules", defined.1);
        findings.equal("accepted", reply == 0, ITS, original.is_some());
        if let Some(original) = original {
            findings.equal("layout", numbers, ITS, original);
        }
        self.count(call, reply, 1);
        self.found(findings, || format!("{call}: {text}"));
    }

    pub fn fill(&mut self, color: u32, format: u32) {
        let original = convert::d3dcolor_fill_pixel_bytes(color, format);
        let mut fill = self.lent(&[FillPixel::from(0x5a)]);
        let reply = port::d3dcolor_fill_pixel_bytes(color, format, &mut fill.lend()[0]);
        let mut findings = Findings::default();
        findings.reply(reply, rules::fill(format));
        findings.equal("accepted", reply == 0, ITS, original.is_some());
        findings.guards("fill", &fill);
        let pixel = original.unwrap_or_default();
        let mut padded = [0; 16];
        padded[..pixel.len()].copy_from_slice(&pixel);
        let ours = fill.content()[0];
        findings.equal("length", ours.length, ITS, pixel.len() as u32);
        findings.equal_bits("bytes", ours.bytes, ITS, padded);
        self.count("d3dcolor_fill_pixel_bytes", reply, 1);
        self.found(findings, || {
            format!("d3dcolor_fill_pixel_bytes: color {color:08X}, format {format}")
        });
    }

    pub fn splat(&mut self, dst: &[u8], pixel: &[u8]) {
        let mut original = dst.to_vec();
        convert::splat_pixel_pattern(&mut original, pixel);
        let (mut ours, pattern) = (self.lent(dst), self.lent(pixel));
        port::splat_pixel_pattern(ours.lend(), pattern.content());
        let mut findings = Findings::default();
        findings.same("dst", &ours, ITS, &original, dst);
        findings.kept("pixel", &pattern, pixel);
        self.count("splat_pixel_pattern", 0, 1);
        self.found(findings, || {
            let (length, pixel) = (dst.len(), bytes_text(pixel));
            format!("splat_pixel_pattern: dst of {length} bytes, pixel of {pixel}")
        });
    }

    pub fn rgba(&mut self, color: u32) {
        let mut rgba = self.lent(&[f32::NAN; 4]);
        let lent = rgba.lend().try_into().expect("four numbers");
        port::d3dcolor_to_rgba_f32(color, lent);
        let mut findings = Findings::default();
        findings.guards("rgba", &rgba);
        let ours: Vec<u32> = rgba.content().iter().map(|it| it.to_bits()).collect();
        let original = convert::d3dcolor_to_rgba_f32(color).map(f32::to_bits);
        findings.equal_bits("bits", &ours[..], ITS, &original);
        self.count("d3dcolor_to_rgba_f32", 0, 1);
        self.found(findings, || format!("d3dcolor_to_rgba_f32: {color:08X}"));
    }

    pub fn halves(&mut self, patterns: impl IntoIterator<Item = u32>) {
        let mut count = 0;
        for bits in patterns {
            count += 1;
            let ours = port::f32_to_f16_bits(bits);
            let value = f32::from_bits(bits);
            let original = convert::f32_to_f16_bits(value);
            // In that interval the original has the signed zero, and the rules have not.
            let faint = !original::BY_RULES && rules::is_faint(bits);
            let wanted = if faint { ours & 0x8000 } else { ours };
            let compiler = answers::compiler_f32_to_f16_bits(bits);
            if original != wanted || compiler != ours && !value.is_nan() {
                let line = format!(
                    "ours {ours:04X}, {ITS} {original:04X}, the C compiler's {compiler:04X}"
                );
                let describe = || format!("f32_to_f16_bits: {bits:08X}");
                self.found(Findings(vec![line]), describe);
            }
        }
        self.count("f32_to_f16_bits", 0, count);
    }

    /// The colours of these samples, by each of COLOURS.
    pub fn triples(&mut self, triples: impl IntoIterator<Item = [u8; 3]>) {
        let mut count = 0;
        let mut lent = COLOURS.map(|_| self.lent(&[0_u8; 3]));
        for [luma, cb, cr] in triples {
            count += 1;
            let (r, g, b) = stretch_rect::yuv_to_rgb8(luma, cb, cr);
            for ((name, call), rgb) in COLOURS.iter().zip(&mut lent) {
                let rgb: &mut [u8; 3] = rgb.lend().try_into().expect("three bytes");
                *rgb = [!r, !g, !b];
                call(luma, cb, cr, rgb);
                if *rgb != [r, g, b] {
                    let line = format!("ours {rgb:?}, {ITS} {:?}", [r, g, b]);
                    let describe = || format!("{name}: {luma}, {cb}, {cr}");
                    self.found(Findings(vec![line]), describe);
                }
            }
        }
        for ((name, _), rgb) in COLOURS.iter().zip(&lent) {
            let mut findings = Findings::default();
            findings.guards("rgb", rgb);
            self.count(name, 0, count);
            self.found(findings, || name.to_string());
        }
    }

    /// Takes in what another run's checks found.
    pub fn add(&mut self, other: Self) {
        for ((call, reply), times) in other.replies {
            self.count(call, reply, times);
        }
        self.unasked += other.unasked;
        self.differences += other.differences;
        self.first.extend(other.first);
        self.first.truncate(KEPT);
    }
}

/// The first piece of the source that is not near to its piece of the destination, and that piece;
/// a piece has so many bytes of either.
fn first_far<'a>(
    [from, to]: [usize; 2],
    src: &'a [u8],
    dst: &'a [u8],
    near: impl Fn(&[u8], &[u8]) -> bool,
) -> Option<(&'a [u8], &'a [u8])> {
    let mut both = src.chunks_exact(from).zip(dst.chunks_exact(to));
    both.find(|(texel, bytes)| !near(texel, bytes))
}

/// Does the works 0 up to `count` on as many threads as there are cores.
pub fn spread(checks: &mut Checks, count: u32, work: impl Fn(&mut Checks, u32) + Sync) {
    let next = AtomicU32::new(0);
    let run = || {
        let mut own = Checks::new(true);
        loop {
            let place = next.fetch_add(1, Ordering::Relaxed);
            if place >= count {
                return own;
            }
            work(&mut own, place);
        }
    };
    let cores = thread::available_parallelism().map_or(1, usize::from);
    thread::scope(|scope| {
        let threads: Vec<_> = (0..cores).map(|_| scope.spawn(run)).collect();
        for thread in threads {
            checks.add(thread.join().expect("a thread that ends"));
        }
    });
}
