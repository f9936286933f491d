//! The shade of the liquid as a person reads it from the screen: which of the panel's six comes
//! nearest, and a card that shows it.

use crate::png::Picture;
use crate::text;
use crate::vial::{SPOT, shade_spots};

const CARD: [u8; 3] = [242, 242, 237];
const SHADOW: [u8; 3] = [120, 126, 128];
const INK: [u8; 3] = [56, 56, 56];

/// Where the card stands, in pixels from the top left, and its size.
const PLACE: [i64; 2] = [214, 66];
const SIZE: [i64; 2] = [96, 76];

/// Reads the shade, marks where it is read, and puts the card on the picture; the shade's number.
pub fn show(picture: &mut Picture) -> usize {
    let (at, size) = SPOT;
    let liquid = picture.mean(at, size);
    let shade = nearest(liquid, picture);
    let [left, top] = at.map(|it| it as i64);
    let [width, height] = size.map(|it| it as i64);
    frame(picture, [left, top], [width, height], INK);

    picture.fill(PLACE.map(|it| it + 4), SIZE, SHADOW);
    picture.fill(PLACE, SIZE, CARD);
    let [left, top] = PLACE;
    let colour = liquid.map(|channel| channel.round() as u8);
    picture.fill([left + 10, top + 10], [76, 36], colour);
    frame(picture, [left + 10, top + 10], [76, 36], INK);
    let said = format!("shade {shade}");
    let across = left + (SIZE[0] - text::width(&said, 2)) / 2;
    text::write(picture, &said, [across, top + 55], 2, INK);
    shade
}

/// The number, from 1, of the shade whose colour differs least.
fn nearest(colour: [f64; 3], picture: &Picture) -> usize {
    let differences = shade_spots().map(|(at, size)| {
        let shade = picture.mean(at, size);
        let squares = [0, 1, 2].map(|channel| (shade[channel] - colour[channel]).powi(2));
        squares.iter().sum::<f64>()
    });
    let least = differences.iter().copied().fold(f64::INFINITY, f64::min);
    let place = differences.iter().position(|it| *it == least);
    1 + place.expect("the least is one of them")
}

/// Draws a line of one pixel around a rectangle.
fn frame(picture: &mut Picture, [left, top]: [i64; 2], [width, height]: [i64; 2], colour: [u8; 3]) {
    for y in [top - 1, top + height] {
        picture.fill([left - 1, y], [width + 2, 1], colour);
    }
    for x in [left - 1, left + width] {
        picture.fill([x, top], [1, height], colour);
    }
}
