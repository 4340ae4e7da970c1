//! Cases of the encoder.

use super::Line;
use crate::encoder::random;
use crate::generate::Rng;

/// Glyphs, flags and a word; then 0 and the word's symbols, or 17 and the place of the first glyph that is not allowed.
pub fn encode(rng: &mut Rng) -> Option<Line> {
    let long = rng.once_in(12);
    let case = random(rng);
    let mut line = Line::default();
    line.list(&case.glyphs);
    line.list(&case.flags);
    line.list(&case.word);
    match case.rust() {
        Ok(symbols) => {
            line.put(0);
            line.puts(symbols);
        }
        Err(place) => line.puts([17, place]),
    }
    // Lists that go past the glyphs which count are long, and few.
    let kept = if long { case.glyphs.len() > 255 } else { line.0.len() < 100 };
    kept.then_some(line)
}
