//! The few elements of SVG that a picture needs. Looks are told once, by class; no font or
//! script is fetched from elsewhere.

/// The kinds of arrow, each with its colour and its dashes.
pub const ARROWS: [(&str, &str, &str); 6] = [
    ("book", "#2166ac", "none"),
    ("passes", "#1b7837", "none"),
    ("fails", "#c0392b", "8 4"),
    ("unreadable", "#7b3294", "2 3"),
    ("silence", "#777777", "1 6"),
    ("to-bad", "#999999", "none"),
];

const STYLE: &str = "
text { font-family: sans-serif; font-size: 11px; fill: #222222; }
.title { font-size: 17px; font-weight: bold; }
.heading { font-size: 13px; font-weight: bold; }
.strong { font-weight: bold; }
.middle { text-anchor: middle; }
.halo { paint-order: stroke; stroke: #ffffff; stroke-width: 4px; stroke-linejoin: round; }
.paper { fill: #ffffff; }
.bar { fill: #eceff3; }
.lane { stroke: #d4d8dd; stroke-width: 1; }
.dot { fill: #222222; }
.card { stroke-width: 1; }
.happy { fill: #e2f2e5; stroke: #1b7837; }
.unhappy { fill: #fff2cf; stroke: #b58900; }
.bad { fill: #f8dbd8; stroke: #c0392b; }
.step { fill: #f6f8fa; stroke: #b8c0c8; }
.arrow { fill: none; stroke-width: 1.8; }
.taken { stroke-width: 3.5; }
.mark { fill: none; stroke: #c0392b; stroke-width: 3; stroke-linecap: round; }
text.cheat { fill: #c0392b; }
.pale { opacity: 0.4; }
";

/// A picture under way.
#[derive(Default)]
pub struct Svg {
    body: String,
}

/// The text as it may stand in a document.
fn escaped(text: &str) -> String {
    let text = text.replace('&', "&amp;");
    text.replace('<', "&lt;").replace('>', "&gt;")
}

impl Svg {
    pub fn rect(&mut self, (x, y): (i32, i32), (width, height): (i32, i32), class: &str) {
        self.body += &format!(
            "<rect x=\"{x}\" y=\"{y}\" width=\"{width}\" height=\"{height}\" rx=\"4\" \
             class=\"{class}\"/>\n"
        );
    }

    pub fn line(&mut self, (x, y): (i32, i32), (to_x, to_y): (i32, i32), class: &str) {
        self.body += &format!(
            "<line x1=\"{x}\" y1=\"{y}\" x2=\"{to_x}\" y2=\"{to_y}\" class=\"{class}\"/>\n"
        );
    }

    /// An arrow of a kind, with further classes.
    pub fn arrow(&mut self, from: (i32, i32), to: (i32, i32), kind: &str, class: &str) {
        let ((x, y), (to_x, to_y)) = (from, to);
        self.body += &format!(
            "<path d=\"M{x} {y} L{to_x} {to_y}\" class=\"arrow {kind} {class}\" \
             marker-end=\"url(#{kind})\"/>\n"
        );
    }

    /// A cross.
    pub fn mark(&mut self, (x, y): (i32, i32)) {
        let (left, top) = (x - 5, y - 5);
        self.body += &format!("<path d=\"M{left} {top} l10 10 m0 -10 l-10 10\" class=\"mark\"/>\n");
    }

    pub fn dot(&mut self, (x, y): (i32, i32)) {
        self.body += &format!("<circle cx=\"{x}\" cy=\"{y}\" r=\"4\" class=\"dot\"/>\n");
    }

    pub fn text(&mut self, (x, y): (i32, i32), class: &str, text: &str) {
        let text = escaped(text);
        self.body += &format!("<text x=\"{x}\" y=\"{y}\" class=\"{class}\">{text}</text>\n");
    }

    /// The other picture's elements, above what is drawn so far.
    pub fn append(&mut self, other: Svg) {
        self.body += &other.body;
    }

    pub fn document(self, width: i32, height: i32) -> String {
        let arrows: String = ARROWS.iter().map(look).collect();
        let heads: String = ARROWS.iter().map(head).collect();
        format!(
            "<svg xmlns=\"http://www.w3.org/2000/svg\" width=\"{width}\" height=\"{height}\" \
             viewBox=\"0 0 {width} {height}\">\n<style>{STYLE}{arrows}</style>\n\
             <defs>\n{heads}</defs>\n<rect width=\"{width}\" height=\"{height}\" class=\"paper\"/>\n\
             {}</svg>\n",
            self.body
        )
    }
}

/// How an arrow of a kind looks, and words in its colour.
fn look((kind, colour, dashes): &(&str, &str, &str)) -> String {
    format!(
        "path.{kind} {{ stroke: {colour}; stroke-dasharray: {dashes}; }}\n\
         text.{kind} {{ fill: {colour}; }}\n"
    )
}

/// The head of an arrow; its size does not grow with the line.
fn head((kind, colour, _): &(&str, &str, &str)) -> String {
    format!(
        "<marker id=\"{kind}\" markerUnits=\"userSpaceOnUse\" markerWidth=\"11\" \
         markerHeight=\"10\" refX=\"10\" refY=\"5\" orient=\"auto\">\
         <path d=\"M0 0 L11 5 L0 10 z\" fill=\"{colour}\"/></marker>\n"
    )
}

/// The words in lines of at most so many letters; one that is longer has a line of its own.
pub fn wrapped(text: &str, letters: usize) -> Vec<String> {
    let mut lines: Vec<String> = Vec::new();
    for word in text.split_whitespace() {
        match lines.last_mut() {
            Some(line) if line.chars().count() + 1 + word.chars().count() <= letters => {
                *line += &format!(" {word}");
            }
            _ => lines.push(word.to_string()),
        }
    }
    lines
}
