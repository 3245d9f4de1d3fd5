//! Adding a point: the tests in their order, then the steps of the drawing's style.

use crate::drawing::{Bend, Drawing, Line, Place, Point};
use crate::entry::Entry;
use crate::refusal::{
    Refusal, BOTH_MARKS, COVERED, FEW_ENTRIES, FINISHED, LISTED_OTHERWISE, NOT_PLACED, NOT_WHOLE,
    NO_PORT, NO_RUN,
};
use crate::style::Style;

/// A run wl, .., wr as indexes into the boundary, l < r.
#[derive(Clone, Copy)]
struct Run {
    l: usize,
    r: usize,
}

impl Drawing {
    /// "an adding call's entries are 16-bit numbers in the file's form"
    pub fn add(&mut self, entries: &[u16]) -> Result<(), Refusal> {
        let entries: Vec<Option<Entry>> = entries.iter().map(|&word| Entry::split(word)).collect();
        self.add_entries(&entries)
    }

    /// "Point 1 has no entry, point 2 has 1, point 3 has 1, 2, guide or not", "may be feeders too";
    /// later points are added. An entry is none if it is marked both.
    pub(crate) fn list_point(
        &mut self,
        point: u16,
        entries: &[Option<Entry>],
    ) -> Result<(), Refusal> {
        match point {
            1 if entries.is_empty() => Ok(()),
            1 => Err(Refusal::new(LISTED_OTHERWISE, 0)),
            2 => self.list_opening(&[1], 0, entries),
            3 => self.list_opening(&[1, 2], 1, entries),
            _ => self.add_entries(entries),
        }
    }

    /// The entries of point 2 or 3, whose lines are there since opening and get their kinds: "13, an
    /// entry marked both guide and feeder", "in the records of points 2 and 3 before 4".
    fn list_opening(
        &mut self,
        expected: &[u16],
        first_line: usize,
        entries: &[Option<Entry>],
    ) -> Result<(), Refusal> {
        let entries = entries.iter().copied().collect::<Option<Vec<Entry>>>();
        let entries = entries.ok_or(Refusal::new(BOTH_MARKS, 0))?;
        if !entries.iter().map(|e| e.point).eq(expected.iter().copied()) {
            return Err(Refusal::new(LISTED_OTHERWISE, 0));
        }
        for (line, entry) in self.lines[first_line..].iter_mut().zip(entries) {
            line.kind = entry.kind;
        }
        Ok(())
    }

    /// "The first refusal that applies is the answer, with its number and place, and nothing
    /// changes." "a test that needs new places is made on a copy"
    fn add_entries(&mut self, entries: &[Option<Entry>]) -> Result<(), Refusal> {
        let (run, entries) = self.test_entries(entries)?;
        let mut copy = self.clone();
        copy.add_run(run, &entries)?;
        *self = copy;
        Ok(())
    }

    /// "Order in adding: 21, 5, then entry by entry 6 before 7, then 8, 9"; gives the run and its
    /// entries.
    fn test_entries(&self, entries: &[Option<Entry>]) -> Result<(Run, Vec<Entry>), Refusal> {
        if self.is_finished() {
            return Err(Refusal::new(FINISHED, 0));
        }
        if entries.len() < 2 {
            return Err(Refusal::new(FEW_ENTRIES, 0));
        }
        let entries = entries
            .iter()
            .enumerate()
            .map(|(index, &entry)| self.test_entry(index, entry))
            .collect::<Result<Vec<Entry>, Refusal>>()?;
        let run = self.test_run(&entries)?;
        let whole = run.l == 0 && run.r + 1 == self.boundary.len();
        if self.k() + 1 == self.n && !whole {
            return Err(Refusal::new(NOT_WHOLE, 0));
        }
        Ok((run, entries))
    }

    /// "entry by entry 6 before 7", and 13 "placed as 6 is, tested for each entry before 6".
    fn test_entry(&self, index: usize, entry: Option<Entry>) -> Result<Entry, Refusal> {
        let entry = entry.ok_or(Refusal::new(BOTH_MARKS, index))?;
        if entry.point == 0 || entry.point > self.k() {
            return Err(Refusal::new(NOT_PLACED, index));
        }
        if self.point(entry.point).owner.is_some() {
            return Err(Refusal::new(COVERED, index));
        }
        Ok(entry)
    }

    /// "8: the first entry that isn't next on the boundary after the entry before it"; all entries
    /// are on the boundary.
    fn test_run(&self, entries: &[Entry]) -> Result<Run, Refusal> {
        let first = entries[0].point;
        let from_first = self.boundary.iter().skip_while(|&&w| w != first);
        let l = self.boundary.len() - from_first.clone().count();
        let matching = from_first
            .zip(entries)
            .take_while(|(&w, entry)| w == entry.point)
            .count();
        if matching < entries.len() {
            return Err(Refusal::new(NO_RUN, matching));
        }
        let r = l + entries.len() - 1;
        Ok(Run { l, r })
    }

    /// "Steps 1 to 5 are done, with the run still on the boundary. Then the covered points leave it,
    /// the new point owns them and stands between wl and wr. Its lines are added last, in entry
    /// order", each of its entry's kind. "k grows by 1."
    fn add_run(&mut self, run: Run, entries: &[Entry]) -> Result<(), Refusal> {
        let (new_point, bends) = match self.style {
            Style::OneBend => self.one_bend_steps(run)?,
            Style::Straight => (self.straight_steps(run), vec![Bend::None; entries.len()]),
        };
        let later = self.k() + 1;
        let inside = run.l + 1..run.r;
        let covered: Vec<u16> = self.boundary.splice(inside, [later]).collect();
        for point in covered {
            self.point_mut(point).owner = Some(later);
        }
        self.points.push(new_point);
        self.lines
            .extend(entries.iter().zip(bends).map(|(entry, bend)| Line {
                later,
                earlier: entry.point,
                bend,
                kind: entry.kind,
            }));
        Ok(())
    }

    /// "A new point moves w(l+1) and all right of it by 1, then wr and all right of it by 1 more, and
    /// sits where the line of slope 1 through wl meets that of slope -1 through wr."
    fn straight_steps(&mut self, run: Run) -> Point {
        self.move_right(run.l + 1, 1);
        self.move_right(run.r, 1);
        let [at_l, at_r] = [run.l, run.r].map(|w| self.point(self.boundary[w]).place);
        Point::new(meeting(at_l.x - at_l.y, at_r.x + at_r.y))
    }

    /// Steps 1 to 5 and 25; gives the new point and the bends of its lines, in entry order.
    fn one_bend_steps(&mut self, run: Run) -> Result<(Point, Vec<Bend>), Refusal> {
        let mut new_point = Point::new(self.make_room(run));
        new_point.h = (run.r - run.l).div_ceil(2) as u16;
        let inner = &self.boundary[run.l + 1..run.r];
        let ports = self.middle_ports(&new_point, inner)?;
        let mut bends = vec![Bend::Right(self.point(self.boundary[run.l]).dr)];
        bends.extend(ports.into_iter().map(Bend::Middle));
        bends.push(Bend::Left(self.point(self.boundary[run.r]).dl));
        Ok((new_point, bends))
    }

    /// Steps 1 to 4; gives the new point's place.
    fn make_room(&mut self, run: Run) -> Place {
        let wl = self.boundary[run.l];
        let wr = self.boundary[run.r];

        let s1 = if self.point(wl).dr == 0 { 2 } else { 1 };
        self.move_right(run.l + 1, s1);
        self.point_mut(wl).dr += 1;

        let s2 = if self.point(wr).dl == 0 { 2 } else { 1 };
        self.move_right(run.r, s2);
        self.point_mut(wr).dl += 1;

        let at_l = self.point(wl).place;
        let at_r = self.point(wr).place;
        let a = at_l.x - at_l.y + 1;
        let mut b = at_r.x + at_r.y - 1;
        if (a + b) % 2 != 0 {
            self.move_right(run.r, 1);
            b += 1;
        }
        meeting(a, b)
    }

    /// "To move a boundary point is to move all it owns, and what those own", for the boundary
    /// points from the given index up to wm. An owner is later than what it owns, so that going from
    /// the latest point to the first decides it before.
    fn move_right(&mut self, from: usize, by: i64) {
        let mut moves = vec![false; self.points.len() + 1];
        for &point in &self.boundary[from..] {
            moves[usize::from(point)] = true;
        }
        for (index, point) in self.points.iter_mut().enumerate().rev() {
            if let Some(owner) = point.owner {
                moves[index + 1] = moves[usize::from(owner)];
            }
            if moves[index + 1] {
                point.place.x += by;
            }
        }
    }

    /// Step 5 and 25: the index of the middle port that each inner point takes.
    fn middle_ports(&self, new_point: &Point, inner: &[u16]) -> Result<Vec<u16>, Refusal> {
        let reached = |port: u16, point: u16| {
            port < 2 * new_point.h && reaches(new_point.middle_port(port), self.point(point).place)
        };
        let numbered = || (1..).zip(inner.iter().copied());
        if numbered().any(|(i, point)| !reached(i, point) && !reached(i + 1, point)) {
            return Err(Refusal::new(NO_PORT, 0));
        }
        let before_change = numbered()
            .take_while(|&(i, point)| reached(i, point))
            .count();
        let ports = (1..=inner.len())
            .map(|i| if i <= before_change { i } else { i + 1 })
            .map(|port| port as u16);
        Ok(ports.collect())
    }
}

/// Where the line of slope 1 with x - y = a meets that of slope -1 with x + y = b, a grid point.
fn meeting(a: i64, b: i64) -> Place {
    assert!((a + b) % 2 == 0, "no half is lost");
    Place {
        x: (a + b) / 2,
        y: (b - a) / 2,
    }
}

/// "A middle port at (a,b) reaches (c,e) if the distance of a and c is at most b - e."
fn reaches(port: Place, point: Place) -> bool {
    (port.x - point.x).abs() <= port.y - point.y
}

#[cfg(test)]
mod tests {
    use crate::{open, Drawing, Kind, Refusal, Style, STYLES};

    /// Calls, each with the number and place of its refusal, which changes nothing.
    fn refuses(drawing: &mut Drawing, cases: &[(&[u16], u16, usize)]) {
        let before = drawing.clone();
        for &(entries, number, place) in cases {
            let answer = drawing.add(entries);
            assert_eq!(answer, Err(Refusal::new(number, place)), "{entries:x?}");
            assert_eq!(*drawing, before);
        }
    }

    // "Order in adding: 21, 5, then entry by entry 6 before 7, then 8, 9, 25", with places; "The existing
    // checks but 25 apply" to straight drawings.
    #[test]
    fn refusals_in_order_and_nothing_changes() {
        STYLES.into_iter().for_each(refusals_in_order);
    }

    /// The same for one style.
    fn refusals_in_order(style: Style) {
        let mut drawing = open(style, 6).unwrap();
        drawing.add(&[1, 3, 2]).unwrap();
        let cases: [(&[u16], u16, usize); 15] = [
            (&[], 5, 0),
            (&[0], 5, 0),
            (&[1], 5, 0),
            (&[0, 3], 6, 0),
            (&[3, 0], 7, 0),
            (&[1, 0x8000], 6, 1),
            (&[1, 5], 6, 1),
            (&[1, 0xffff], 13, 1),
            (&[1, 2, 3], 7, 2),
            (&[2, 1, 5], 6, 2),
            (&[1, 2], 8, 1),
            (&[1, 1], 8, 1),
            (&[2, 4], 8, 1),
            (&[1, 4, 1], 8, 2),
            (&[1, 4, 2, 2], 8, 3),
        ];
        refuses(&mut drawing, &cases);
        drawing.add(&[1, 4]).unwrap();
        refuses(
            &mut drawing,
            &[(&[1, 5], 9, 0), (&[5, 4, 2], 9, 0), (&[1, 5, 4], 9, 0)],
        );
        drawing.add(&[1, 5, 4, 2]).unwrap();
        refuses(
            &mut drawing,
            &[(&[], 21, 0), (&[0], 21, 0), (&[1, 6, 2], 21, 0)],
        );
    }

    // "13, an entry marked both guide and feeder, placed as 6 is, tested for each entry before 6".
    #[test]
    fn entries_marked_both() {
        STYLES.into_iter().for_each(marked_both);
    }

    /// The same for one style.
    fn marked_both(style: Style) {
        let mut drawing = open(style, 6).unwrap();
        drawing.add(&[1, 3, 2]).unwrap();
        let cases: [(&[u16], u16, usize); 17] = [
            (&[0xC001], 5, 0),
            (&[0xC001, 4], 13, 0),
            (&[0xC000, 4], 13, 0),
            (&[0xC003, 4], 13, 0),
            (&[0xC009, 0xFFFF], 13, 0),
            (&[1, 0xC004], 13, 1),
            (&[1, 0xC000], 13, 1),
            (&[1, 4, 0xFFFF], 13, 2),
            (&[1, 2, 0xC001], 13, 2),
            (&[2, 1, 0xC004], 13, 2),
            (&[0, 0xC001], 6, 0),
            (&[0x8000, 0xC001], 6, 0),
            (&[0x4000, 0xC001], 6, 0),
            (&[1, 9, 0xC001], 6, 1),
            (&[1, 0x4005], 6, 1),
            (&[1, 0x7FFF], 6, 1),
            (&[1, 0x4003, 0xC002], 7, 1),
        ];
        refuses(&mut drawing, &cases);
        drawing.add(&[0x4001, 4]).unwrap();
        refuses(&mut drawing, &[(&[1, 0xC005], 13, 1)]);
        drawing.add(&[1, 0x8005, 0x4004, 2]).unwrap();
        refuses(&mut drawing, &[(&[0xC001, 0xC000], 21, 0)]);
    }

    /// A drawing of five points by two calls, marked or not.
    fn drawn(style: Style, marks: [u16; 6]) -> Drawing {
        let [a, b, c, d, e, f] = marks;
        let mut drawing = open(style, 5).unwrap();
        drawing.add(&[a | 1, b | 3]).unwrap();
        drawing.add(&[c | 1, d | 4, e | 3, f | 2]).unwrap();
        drawing
    }

    // "a drawing keeps the outcome for each line", "Places don't depend on it."
    #[test]
    fn kinds_are_kept_and_places_do_not_depend_on_them() {
        for style in STYLES {
            let mut marked = drawn(style, [0x4000, 0, 0x8000, 0x4000, 0x4000, 0]);
            let kinds: Vec<Kind> = marked.lines.iter().map(|line| line.kind).collect();
            let (guide, plain, feeder) = (Kind::Guide, Kind::Plain, Kind::Feeder);
            let expected = [
                plain, plain, plain, feeder, plain, guide, feeder, feeder, plain,
            ];
            assert_eq!(kinds, expected);
            for line in &mut marked.lines {
                line.kind = Kind::Plain;
            }
            assert_eq!(marked, drawn(style, [0; 6]));
        }
    }
}
