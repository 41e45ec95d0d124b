//! The text of a picture as SVG: lines, labels and paths, by the classes of its styles.

/// What was put into a picture so far.
#[derive(Default)]
pub struct Svg {
    text: String,
}

/// Styles of every picture.
const STYLE: &str = "\
text { font-family: sans-serif; font-size: 12px; fill: #222 }
.title { font-size: 16px; font-weight: bold }
.row { text-anchor: end }
.tick { text-anchor: middle; font-size: 11px }
";

impl Svg {
    pub fn put(&mut self, line: &str) {
        self.text.push_str(line);
        self.text.push('\n');
    }

    /// The title and two lines below it, which also stand for the picture where it is not seen.
    pub fn heading(&mut self, title: &str, [first, second]: [&str; 2]) {
        self.put(&format!("<title>{title}</title>"));
        self.put(&format!("<desc>{first} {second}</desc>"));
        self.label("title", 16.0, 26.0, title);
        self.label("note", 16.0, 47.0, first);
        self.label("note", 16.0, 65.0, second);
    }

    pub fn label(&mut self, class: &str, x: f64, y: f64, text: &str) {
        let (x, y) = (short(x), short(y));
        self.put(&format!(
            "<text class=\"{class}\" x=\"{x}\" y=\"{y}\">{text}</text>"
        ));
    }

    pub fn line(&mut self, class: &str, (x1, y1): (f64, f64), (x2, y2): (f64, f64)) {
        let (x1, y1, x2, y2) = (short(x1), short(y1), short(x2), short(y2));
        self.put(&format!(
            "<path class=\"{class}\" d=\"M{x1} {y1}L{x2} {y2}\"/>"
        ));
    }

    pub fn paths(&mut self, class: &str, path: &str) {
        if !path.is_empty() {
            self.put(&format!("<path class=\"{class}\" d=\"{path}\"/>"));
        }
    }

    /// The whole text: head, styles, what these refer to, and what was put.
    pub fn whole(self, (width, height): (f64, f64), style: &str, defs: &str) -> String {
        let (width, height) = (short(width), short(height));
        format!(
            "<svg xmlns=\"http://www.w3.org/2000/svg\" width=\"{width}\" height=\"{height}\" \
             viewBox=\"0 0 {width} {height}\" role=\"img\">\n\
             <style>\n{STYLE}{style}</style>\n{defs}\
             <rect width=\"{width}\" height=\"{height}\" fill=\"#fff\"/>\n{}</svg>\n",
            self.text
        )
    }
}

/// A number with at most two places behind the point.
pub fn short(number: f64) -> String {
    let text = format!("{number:.2}");
    text.trim_end_matches('0').trim_end_matches('.').to_string()
}
