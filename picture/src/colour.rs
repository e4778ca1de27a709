//! Colours of pieces.

/// The fill and the darker outline colour of a piece, as `#rrggbb`.
pub struct Colours {
    pub fill: String,
    pub outline: String,
}

/// Colours that differ from piece to piece; none is red, which is kept for conflicts.
pub fn colours(number: usize) -> Colours {
    // Steps of the golden section keep any number of hues well apart; 30 degrees around red are left out.
    let hue = 30.0 + 300.0 * (number as f64 * 0.618_034).fract();
    let lightness = [0.80, 0.70, 0.88][number % 3];
    Colours {
        fill: hex(hue, 0.60, lightness),
        outline: hex(hue, 0.50, 0.30),
    }
}

/// A colour of a hue in degrees, a saturation and a lightness from 0 to 1.
fn hex(hue: f64, saturation: f64, lightness: f64) -> String {
    let swing = saturation * lightness.min(1.0 - lightness);
    let part = |shift: f64| {
        let along = (shift + hue / 30.0) % 12.0;
        let share = lightness - swing * (along - 3.0).min(9.0 - along).clamp(-1.0, 1.0);
        (255.0 * share).round() as u8
    };
    format!("#{:02x}{:02x}{:02x}", part(0.0), part(8.0), part(4.0))
}

#[cfg(test)]
mod tests {
    use super::*;

    #[test]
    fn known_colours() {
        assert_eq!(hex(0.0, 1.0, 0.5), "#ff0000");
        assert_eq!(hex(120.0, 1.0, 0.25), "#008000");
        assert_eq!(hex(240.0, 1.0, 0.75), "#8080ff");
        assert_eq!(hex(77.0, 0.0, 0.2), "#333333");
    }

    #[test]
    fn pieces_have_colours_of_their_own() {
        let mut fills: Vec<String> = (0..64).map(|number| colours(number).fill).collect();
        fills.sort();
        fills.dedup();
        assert_eq!(fills.len(), 64);
    }
}
