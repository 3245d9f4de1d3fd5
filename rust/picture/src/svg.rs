//! A drawing as an SVG picture for a planner.

use std::f64::consts::TAU;

use panel::{Kind, Place};

use crate::drawing::{Drawing, Line};

/// Picture units per grid unit.
const UNIT: f64 = 24.0;
/// Picture units around the frame; the caption stands in the upper part.
const MARGIN: f64 = 48.0;
/// Half the length of the tick at a bend.
const TICK: f64 = 4.0;
/// From a point to the middle of its number.
const NUMBER: f64 = 11.0;

/// `.near` is not seen: it makes a line wider for the pointer. A feeder's two grooves are a wide
/// stroke with `.between`, in the plate's colour, over it. A line under the pointer stands out with
/// its tick.
const STYLE: &str = "\
.frame{fill:none;stroke:#bbbbbb;stroke-width:1}\
.near{fill:none;stroke:transparent;stroke-width:8}\
.plain{fill:none;stroke:#202020;stroke-width:1.2}\
.feeder{fill:none;stroke:#202020;stroke-width:4.4;stroke-linejoin:round}\
.between{fill:none;stroke:#ffffff;stroke-width:2;stroke-linejoin:round}\
.guide{fill:none;stroke:#2070c0;stroke-width:1.2;stroke-dasharray:5 3}\
.tick{stroke:#c03030;stroke-width:1.2}\
.line:hover .plain,.line:hover .guide,.line:hover .tick{stroke:#e07000;stroke-width:4}\
.line:hover .feeder{stroke:#e07000;stroke-width:8}\
.point{fill:#202020}\
text{font-family:sans-serif}\
.number{font-size:10px;text-anchor:middle;fill:#a00000;stroke:#ffffff;stroke-width:2.5px;paint-order:stroke}\
.caption{font-size:14px;fill:#202020}";

/// The picture of a drawing: the frame, plain lines solid, feeders double, guides dashed, a tick at
/// each bend, points as dots with their numbers. Every line and every point has a title.
pub fn svg(drawing: &Drawing) -> String {
    let canvas = Canvas { drawing };
    let (width, height) = canvas.size();
    let lines = drawing.lines.iter().enumerate();
    let lines: String = lines.map(|(number, l)| canvas.line(number, l)).collect();
    let points: String = (1..=drawing.n).map(|p| canvas.point(p)).collect();
    let caption = canvas.caption();
    let frame = canvas.frame();
    format!(
        "<svg xmlns=\"http://www.w3.org/2000/svg\" width=\"{width}\" height=\"{height}\" \
         viewBox=\"0 0 {width} {height}\">\n\
         <style>{STYLE}</style>\n\
         <rect width=\"{width}\" height=\"{height}\" fill=\"#ffffff\"/>\n\
         {caption}{frame}{lines}{points}</svg>\n"
    )
}

/// Turns grid units into picture units; "y points up" in the drawing and down in the picture.
struct Canvas<'a> {
    drawing: &'a Drawing,
}

impl Canvas<'_> {
    /// A length of the header in picture units.
    fn length(&self, written: u16) -> f64 {
        f64::from(written / self.drawing.scale) * UNIT
    }

    /// Width and height of the picture.
    fn size(&self) -> (f64, f64) {
        let width = self.length(self.drawing.width) + 2.0 * MARGIN;
        let height = self.length(self.drawing.height) + 2.0 * MARGIN;
        (width, height)
    }

    /// A grid place in picture units.
    fn at(&self, place: Place) -> (f64, f64) {
        let x = MARGIN + f64::from(place.x) * UNIT;
        let y = MARGIN + self.length(self.drawing.height) - f64::from(place.y) * UNIT;
        (x, y)
    }

    /// n, scale, width and height as the drawing file has them.
    fn caption(&self) -> String {
        let Drawing {
            n,
            scale,
            width,
            height,
            ..
        } = self.drawing;
        format!(
            "<text class=\"caption\" x=\"{MARGIN}\" y=\"20\">\
             {n} points, scale {scale}, width {width}, height {height}</text>\n"
        )
    }

    /// The rectangle from (0,0) to width and height.
    fn frame(&self) -> String {
        let (width, height) = self.size();
        format!(
            "<rect class=\"frame\" x=\"{MARGIN}\" y=\"{MARGIN}\" width=\"{}\" height=\"{}\"/>\n",
            width - 2.0 * MARGIN,
            height - 2.0 * MARGIN
        )
    }

    /// A line from its later point, over its bend if it has one, to its earlier point, with its tick and
    /// its title.
    fn line(&self, number: usize, line: &Line) -> String {
        let [later, earlier] = [line.later, line.earlier].map(|end| self.drawing.place(end));
        let places = [Some(later), line.bend, Some(earlier)];
        let points = places.into_iter().flatten().map(|place| {
            let (x, y) = self.at(place);
            format!("{x},{y}")
        });
        let points = points.collect::<Vec<String>>().join(" ");
        let stroke = |class: &str| format!("<polyline class=\"{class}\" points=\"{points}\"/>");
        let (kind, strokes) = match line.kind {
            Kind::Guide => ("guide", stroke("guide")),
            Kind::Plain => ("plain", stroke("plain")),
            Kind::Feeder => ("feeder", stroke("feeder") + &stroke("between")),
        };
        let near = stroke("near");
        let Line { later, earlier, .. } = line;
        let tick = line.bend.map(|bend| self.tick(line, bend));
        let tick = tick.unwrap_or_default();
        format!(
            "<g class=\"line\"><title>line {number}: {later} to {earlier}, {kind}</title>\
             {near}{strokes}{tick}</g>\n"
        )
    }

    /// A tick at a line's bend, across the direction from the later to the earlier point.
    fn tick(&self, line: &Line, bend: Place) -> String {
        let (x1, y1) = self.at(self.drawing.place(line.later));
        let (x, y) = self.at(bend);
        let (x3, y3) = self.at(self.drawing.place(line.earlier));
        let length = (x3 - x1).hypot(y3 - y1);
        let dx = TICK * (y3 - y1) / length;
        let dy = TICK * (x1 - x3) / length;
        format!(
            "<line class=\"tick\" x1=\"{:.2}\" y1=\"{:.2}\" x2=\"{:.2}\" y2=\"{:.2}\"/>",
            x - dx,
            y - dy,
            x + dx,
            y + dy
        )
    }

    /// A dot and its number, which stands where no line of the point leaves, with their title.
    fn point(&self, point: usize) -> String {
        let place = self.drawing.place(point);
        let (x, y) = self.at(place);
        let angle = self.free_angle(point);
        format!(
            "<g><title>point {point} at ({},{})</title>\
             <circle class=\"point\" cx=\"{x}\" cy=\"{y}\" r=\"2.5\"/>\
             <text class=\"number\" x=\"{:.2}\" y=\"{:.2}\">{point}</text></g>\n",
            place.x,
            place.y,
            x + NUMBER * angle.cos(),
            y + NUMBER * angle.sin() + 3.5
        )
    }

    /// The middle of the widest gap between the lines that leave a point.
    fn free_angle(&self, point: usize) -> f64 {
        let (x, y) = self.at(self.drawing.place(point));
        let ways = self.drawing.ways_from(point).map(|way| self.at(way));
        let mut angles: Vec<f64> = ways.map(|(u, v)| (v - y).atan2(u - x)).collect();
        angles.sort_by(f64::total_cmp);
        let next = angles.iter().cycle().skip(1);
        let gaps = angles.iter().zip(next).map(|(from, to)| {
            let gap = (to - from).rem_euclid(TAU);
            (gap, from + gap / 2.0)
        });
        let widest = gaps.max_by(|one, two| one.0.total_cmp(&two.0));
        widest.map_or(0.0, |(_, middle)| middle)
    }
}
