//! A drawing in SVG.

/// What a text is before, around or after.
#[derive(Clone, Copy)]
pub enum Anchor {
    Start,
    Middle,
    End,
}

/// Lines are drawn in a colour, and perhaps dashed.
#[derive(Clone, Copy)]
pub struct Pen {
    pub colour: &'static str,
    pub width: f64,
    pub dashed: bool,
}

impl Pen {
    fn attributes(self) -> String {
        let dashes = if self.dashed {
            " stroke-dasharray=\"6 4\""
        } else {
            ""
        };
        format!(
            "fill=\"none\" stroke=\"{}\" stroke-width=\"{}\"{dashes}",
            self.colour, self.width
        )
    }
}

pub struct Svg(String);

impl Svg {
    /// A white sheet, so that it can be read on a dark page, with words for those who do not see it.
    pub fn new(width: f64, height: f64, words: &str) -> Self {
        let words = escaped(words);
        Self(format!(
            "<svg xmlns=\"http://www.w3.org/2000/svg\" viewBox=\"0 0 {width} {height}\" width=\"{width}\" \
            height=\"{height}\" role=\"img\" font-family=\"system-ui, 'Segoe UI', Helvetica, Arial, sans-serif\" \
            font-size=\"13\" fill=\"#222222\">\n\
            <title>{words}</title>\n\
            <rect width=\"{width}\" height=\"{height}\" fill=\"#ffffff\"/>\n"
        ))
    }

    pub fn line(&mut self, points: &[(f64, f64)], pen: Pen) {
        let points: Vec<String> = points
            .iter()
            .map(|(x, y)| format!("{x:.1},{y:.1}"))
            .collect();
        let (points, pen) = (points.join(" "), pen.attributes());
        self.0 += &format!("<polyline points=\"{points}\" {pen}/>\n");
    }

    pub fn dot(&mut self, (x, y): (f64, f64), colour: &str) {
        self.0 += &format!("<circle cx=\"{x:.1}\" cy=\"{y:.1}\" r=\"3\" fill=\"{colour}\"/>\n");
    }

    pub fn text(&mut self, place: (f64, f64), anchor: Anchor, text: &str) {
        self.styled_text(place, anchor, "", text);
    }

    pub fn title(&mut self, place: (f64, f64), text: &str) {
        let style = " font-size=\"16\" font-weight=\"bold\"";
        self.styled_text(place, Anchor::Start, style, text);
    }

    fn styled_text(&mut self, (x, y): (f64, f64), anchor: Anchor, style: &str, text: &str) {
        let anchor = match anchor {
            Anchor::Start => "start",
            Anchor::Middle => "middle",
            Anchor::End => "end",
        };
        let text = escaped(text);
        self.0 += &format!(
            "<text x=\"{x:.1}\" y=\"{y:.1}\" text-anchor=\"{anchor}\"{style}>{text}</text>\n"
        );
    }

    pub fn finish(self) -> String {
        self.0 + "</svg>\n"
    }
}

/// A text without the signs that mean something in SVG.
fn escaped(text: &str) -> String {
    text.replace('&', "&amp;")
        .replace('<', "&lt;")
        .replace('>', "&gt;")
}

#[cfg(test)]
mod tests {
    use super::escaped;

    #[test]
    fn signs_are_escaped() {
        assert_eq!(escaped("a < b & c > d"), "a &lt; b &amp; c &gt; d");
    }
}
