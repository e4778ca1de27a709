//! The definitions of documents 01 and 02 over pixel sets, written for clearness and not for speed.
//!
//! Nothing here uses the tested program. Directions are unit steps: (1, 0) and (0, 1).

#![allow(dead_code)]

/// A pixel or a corner.
pub type Point = (i32, i32);

/// A step along a direction.
pub type Step = Point;

/// Both directions, horizontal first.
pub const STEPS: [Step; 2] = [(1, 0), (0, 1)];

/// A piece: box, allowed turns, pixels, and whether it is locked.
#[derive(Clone, Debug)]
pub struct Panel {
    pub l: i32,
    pub w: i32,
    pub o: i32,
    pub pixels: Vec<Point>,
    pub locked: bool,
}

/// A quarter turn count and a corner.
#[derive(Clone, Copy, Debug, PartialEq, Eq)]
pub struct Place {
    pub turn: i32,
    pub corner: Point,
}

/// Sheet rows, sheet columns, gap and pieces.
#[derive(Clone, Debug)]
pub struct Problem {
    pub w: i32,
    pub l: i32,
    pub g: i32,
    pub panels: Vec<Panel>,
}

/// What a descent gives beside the layout.
#[derive(Clone, Debug, PartialEq, Eq)]
pub struct Outcome {
    pub word: &'static str,
    pub sum: u64,
    pub trials: u64,
    pub moves: u64,
}

/// The pixels of a panel in a turn, counted from the corner.
pub fn turned(panel: &Panel, turn: i32) -> Vec<Point> {
    let (l, w) = (panel.l, panel.w);
    let image = |&(x, y): &Point| match turn {
        0 => (x, y),
        1 => (w - 1 - y, x),
        2 => (l - 1 - x, w - 1 - y),
        _ => (y, l - 1 - x),
    };
    panel.pixels.iter().map(image).collect()
}

/// Columns and rows of a panel's turned box.
pub fn turned_box(panel: &Panel, turn: i32) -> Point {
    if turn % 2 == 0 {
        (panel.l, panel.w)
    } else {
        (panel.w, panel.l)
    }
}

/// Whether two pixel sets conflict when the second is moved by d: a pixel of one is at most g columns and g rows from one of the other.
pub fn conflicts(g: i32, i: &[Point], j: &[Point], d: Point) -> bool {
    let near = |p: &Point, q: &Point| (p.0 - q.0 - d.0).abs() <= g && (p.1 - q.1 - d.1).abs() <= g;
    i.iter().any(|p| j.iter().any(|q| near(p, q)))
}

/// The depth along a direction: the least |t| that parts the sets.
pub fn depth(g: i32, i: &[Point], j: &[Point], d: Point, step: Step) -> u64 {
    let apart = |t: i32| !conflicts(g, i, j, (d.0 + t * step.0, d.1 + t * step.1));
    (0..).find(|&t| apart(t) || apart(-t)).unwrap() as u64
}

/// The smaller of the two depths.
pub fn penalty(g: i32, i: &[Point], j: &[Point], d: Point) -> u64 {
    depth(g, i, j, d, STEPS[0]).min(depth(g, i, j, d, STEPS[1]))
}

impl Problem {
    /// The penalty of two placed panels.
    pub fn pair_penalty(&self, layout: &[Place], i: usize, j: usize) -> u64 {
        let pixels_i = turned(&self.panels[i], layout[i].turn);
        let pixels_j = turned(&self.panels[j], layout[j].turn);
        let (vi, vj) = (layout[i].corner, layout[j].corner);
        penalty(self.g, &pixels_i, &pixels_j, (vj.0 - vi.0, vj.1 - vi.1))
    }

    /// All pairs in the order (0,1), (0,2) and so on.
    pub fn pairs(&self) -> Vec<(usize, usize)> {
        let n = self.panels.len();
        (0..n)
            .flat_map(|i| (i + 1..n).map(move |j| (i, j)))
            .collect()
    }

    /// The weighted sum over the pairs that satisfy a condition.
    pub fn sum(&self, layout: &[Place], weights: &[u16], of: impl Fn(usize, usize) -> bool) -> u64 {
        let pairs = self
            .pairs()
            .into_iter()
            .zip(weights)
            .filter(|((i, j), _)| of(*i, *j));
        pairs
            .map(|((i, j), &weight)| u64::from(weight) * self.pair_penalty(layout, i, j))
            .sum()
    }

    /// The weighted sum of one panel's pairs.
    pub fn panel_sum(&self, layout: &[Place], weights: &[u16], panel: usize) -> u64 {
        self.sum(layout, weights, |i, j| i == panel || j == panel)
    }

    /// Whether a placement is inside.
    pub fn inside(&self, panel: usize, place: Place) -> bool {
        let (columns, rows) = turned_box(&self.panels[panel], place.turn);
        let (x, y) = place.corner;
        x >= 0 && y >= 0 && x + columns <= self.l && y + rows <= self.w
    }

    /// The least sum over the line through a corner, and the smallest place that has it.
    pub fn line_search(
        &self,
        layout: &[Place],
        weights: &[u16],
        panel: usize,
        turn: i32,
        step: Step,
        through: Point,
    ) -> Option<(u64, Place)> {
        let mut best: Option<(u64, Place)> = None;
        for t in 0..self.l.max(self.w) {
            let corner = (
                through.0 * step.1 + t * step.0,
                through.1 * step.0 + t * step.1,
            );
            let place = Place { turn, corner };
            if !self.inside(panel, place) {
                continue;
            }
            let mut moved = layout.to_vec();
            moved[panel] = place;
            let sum = self.panel_sum(&moved, weights, panel);
            if best.is_none_or(|(least, _)| sum < least) {
                best = Some((sum, place));
            }
        }
        best
    }

    /// All trials of free panels in their order.
    pub fn trials(&self) -> Vec<(usize, i32, Step)> {
        let mut trials = Vec::new();
        for (number, panel) in self.panels.iter().enumerate() {
            for turn in 0..4 {
                if panel.o >> turn & 1 == 1 && !panel.locked {
                    trials.extend(STEPS.map(|step| (number, turn, step)));
                }
            }
        }
        trials
    }

    /// A descent; the layout is changed in place.
    pub fn descent(&self, layout: &mut [Place], weights: &[u16], budget: u64) -> Outcome {
        let list = self.trials();
        let (mut trials, mut moves, mut quiet) = (0, 0, 0);
        let word = loop {
            if self.sum(layout, weights, |_, _| true) == 0 {
                break "clear";
            }
            if quiet == list.len() {
                break "settled";
            }
            if trials == budget {
                break "spent";
            }
            let (panel, turn, step) = list[trials as usize % list.len()];
            trials += 1;
            let present = self.panel_sum(layout, weights, panel);
            let through = layout[panel].corner;
            match self.line_search(layout, weights, panel, turn, step, through) {
                Some((least, place)) if least < present => {
                    layout[panel] = place;
                    moves += 1;
                    quiet = 0;
                }
                _ => quiet += 1,
            }
        };
        Outcome {
            word,
            sum: self.sum(layout, weights, |_, _| true),
            trials,
            moves,
        }
    }

    /// A guided run: best layout, its plain sum, the new weights, trials and moves.
    pub fn guided_run(
        &self,
        start: &[Place],
        weights: &[u16],
        rounds: usize,
        budget: u64,
    ) -> (Vec<Place>, u64, Vec<u16>, u64, u64) {
        let unit = vec![1; weights.len()];
        let plain = |layout: &[Place]| self.sum(layout, &unit, |_, _| true);
        let (mut present, mut best) = (start.to_vec(), start.to_vec());
        let (mut weights, mut trials, mut moves) = (weights.to_vec(), 0, 0);
        for _ in 0..rounds {
            let outcome = self.descent(&mut present, &weights, budget);
            trials += outcome.trials;
            moves += outcome.moves;
            if plain(&present) < plain(&best) {
                best = present.clone();
            }
            if outcome.word == "clear" {
                break;
            }
            for ((i, j), weight) in self.pairs().into_iter().zip(&mut weights) {
                if self.pair_penalty(&present, i, j) > 0 {
                    *weight = weight.saturating_add(1);
                }
            }
        }
        let sum = plain(&best);
        (best, sum, weights, trials, moves)
    }

    /// The start layout: the free panels are stacked, the locked ones lie as given.
    pub fn start(&self, given: &[Place]) -> Vec<Place> {
        let mut order: Vec<usize> = (0..self.panels.len()).collect();
        order.sort_by_key(|&i| (-self.panels[i].l, i));
        let mut layout = given.to_vec();
        let (mut x, mut y, mut m) = (0, 0, 0);
        for i in order {
            let panel = &self.panels[i];
            if panel.locked {
                continue;
            }
            if y + panel.w > self.w {
                x += m;
                y = 0;
                m = 0;
            }
            let corner = (x.min(self.l - panel.l), y);
            layout[i] = Place { turn: 0, corner };
            y += panel.w;
            m = m.max(panel.l);
        }
        layout
    }

    /// The program's start layout: the locked panels lie where they would if none were locked.
    pub fn own_start(&self) -> Vec<Place> {
        let mut free = self.clone();
        free.panels
            .iter_mut()
            .for_each(|panel| panel.locked = false);
        let anywhere = Place {
            turn: 0,
            corner: (0, 0),
        };
        self.start(&free.start(&vec![anywhere; self.panels.len()]))
    }

    /// Whether a panel would lie inside at a place and conflict with none of the others of a layout.
    pub fn fits(&self, layout: &[Place], panel: usize, place: Place) -> bool {
        let pixels = turned(&self.panels[panel], place.turn);
        let conflicts = |other: usize| {
            let (from, to) = (place.corner, layout[other].corner);
            let others = turned(&self.panels[other], layout[other].turn);
            conflicts(self.g, &pixels, &others, (to.0 - from.0, to.1 - from.1))
        };
        let mut others = (0..layout.len()).filter(|&other| other != panel);
        self.inside(panel, place) && !others.any(conflicts)
    }

    /// A compaction; the layout is changed in place. Gives the pixels slid and the passes that slid some panel.
    pub fn compact(&self, layout: &mut [Place]) -> (u64, usize) {
        let (mut slid, mut passes) = (0, 0);
        loop {
            let before_pass = slid;
            for panel in 0..layout.len() {
                if !self.panels[panel].locked {
                    slid += self.slide(layout, panel);
                }
            }
            if slid == before_pass {
                return (slid, passes);
            }
            passes += 1;
        }
    }

    /// Slides a panel of a layout to the left as far as it goes, then down, and again until neither moves it. Gives the pixels slid.
    fn slide(&self, layout: &mut [Place], panel: usize) -> u64 {
        let mut slid = 0;
        loop {
            let before_round = slid;
            for step in STEPS {
                loop {
                    let Place { turn, corner } = layout[panel];
                    let corner = (corner.0 - step.0, corner.1 - step.1);
                    let next = Place { turn, corner };
                    if !self.fits(layout, panel, next) {
                        break;
                    }
                    layout[panel] = next;
                    slid += 1;
                }
            }
            if slid == before_round {
                return slid;
            }
        }
    }

    /// The job text: of version 3 where a panel is locked, else of version 2 where there is a gap.
    pub fn text(&self) -> String {
        let (w, l, g, n) = (self.w, self.l, self.g, self.panels.len());
        let locks = self.panels.iter().any(|panel| panel.locked);
        let mut text = match (locks, g) {
            (true, _) => format!("job,3,{w},{l},{n},{g}\n"),
            (false, 0) => format!("job,1,{w},{l},{n}\n"),
            _ => format!("job,2,{w},{l},{n},{g}\n"),
        };
        for (i, panel) in self.panels.iter().enumerate() {
            let lock = match (locks, panel.locked) {
                (false, _) => "",
                (true, false) => ",0",
                (true, true) => ",1",
            };
            text += &format!("piece,{},{},{},{}{lock}\n", i, panel.l, panel.w, panel.o);
            for y in 0..panel.w {
                let mark = |x| {
                    if panel.pixels.contains(&(x, y)) {
                        '#'
                    } else {
                        '.'
                    }
                };
                text += &format!("row,{}\n", (0..panel.l).map(mark).collect::<String>());
            }
        }
        text
    }

    /// The used length over pixel sets: the columns from the leftmost pixel of all panels to the rightmost. A box has a pixel in its first
    /// and in its last column, so these are the columns between the boxes' ends.
    pub fn used_length(&self, layout: &[Place]) -> i32 {
        let columns_of = |(panel, place): (&Panel, &Place)| {
            let corner = place.corner.0;
            let pixels = turned(panel, place.turn).into_iter();
            pixels.map(|(x, _)| corner + x).collect::<Vec<i32>>()
        };
        let columns: Vec<i32> = self
            .panels
            .iter()
            .zip(layout)
            .flat_map(columns_of)
            .collect();
        columns.iter().max().unwrap() - columns.iter().min().unwrap() + 1
    }

    /// The program's output for this job.
    pub fn output(&self) -> String {
        let unit = vec![1; self.pairs().len()];
        let (best, sum, _, trials, moves) = self.guided_run(&self.own_start(), &unit, 20, 1_000);
        let mut text = format!("layout,1,{},{},{}\n", self.w, self.l, best.len());
        for (i, place) in best.iter().enumerate() {
            let (x, y) = place.corner;
            text += &format!("at,{},{},{},{}\n", i, 90 * place.turn, x, y);
        }
        let used = self.used_length(&best);
        let word = if sum == 0 { "clear" } else { "open" };
        text + &format!("end,{word},{sum},{trials},{moves},{used}\n")
    }
}

/// A linear congruential generator with fixed constants.
pub struct Lcg(pub u64);

impl Lcg {
    /// A number from `low` to `high`, both included.
    pub fn range(&mut self, low: i32, high: i32) -> i32 {
        self.0 = self
            .0
            .wrapping_mul(6_364_136_223_846_793_005)
            .wrapping_add(1_442_695_040_888_963_407);
        low + ((self.0 >> 33) % (high - low + 1) as u64) as i32
    }

    /// A gap: often none, mostly a small one.
    pub fn gap(&mut self) -> i32 {
        match self.range(0, 9) {
            0..=3 => 0,
            4..=6 => 1,
            7 | 8 => self.range(2, 4),
            _ => self.range(5, 8),
        }
    }

    /// A tight panel of a box with some percentage of pixels and random turns.
    pub fn panel(&mut self, l: i32, w: i32, percent: i32) -> Panel {
        loop {
            let mut pixels = Vec::new();
            for y in 0..w {
                for x in 0..l {
                    if self.range(1, 100) <= percent {
                        pixels.push((x, y));
                    }
                }
            }
            let tight = pixels.iter().any(|p| p.0 == 0)
                && pixels.iter().any(|p| p.0 == l - 1)
                && pixels.iter().any(|p| p.1 == 0)
                && pixels.iter().any(|p| p.1 == w - 1);
            if tight {
                let o = 2 * self.range(0, 7) + 1;
                let locked = false;
                return Panel {
                    l,
                    w,
                    o,
                    pixels,
                    locked,
                };
            }
        }
    }

    /// A job of small panels.
    pub fn problem(&mut self, most_panels: i32, most_side: i32) -> Problem {
        let (w, l) = (self.range(1, 2 * most_side), self.range(1, 3 * most_side));
        let mut panels = Vec::new();
        for _ in 0..self.range(1, most_panels) {
            let (side_l, side_w) = (
                self.range(1, most_side.min(l)),
                self.range(1, most_side.min(w)),
            );
            let percent = self.range(30, 100);
            panels.push(self.panel(side_l, side_w, percent));
        }
        let g = self.gap();
        Problem { w, l, g, panels }
    }

    /// A job whose panels cover most of the sheet, so that overlap is hard to avoid.
    pub fn crowded_problem(&mut self, most_panels: i32, most_side: i32) -> Problem {
        let mut panels = Vec::new();
        for _ in 0..self.range(3, most_panels) {
            let (l, w) = (self.range(1, most_side), self.range(1, most_side));
            let percent = self.range(40, 100);
            panels.push(self.panel(l, w, percent));
        }
        let pixels: i32 = panels.iter().map(|panel| panel.pixels.len() as i32).sum();
        let w = panels.iter().map(|panel| panel.w).max().unwrap() + self.range(0, 2);
        let longest = panels.iter().map(|panel| panel.l).max().unwrap();
        let percent = self.range(60, 100);
        Problem {
            w,
            l: longest.max(pixels * 100 / (percent * w)),
            g: self.gap(),
            panels,
        }
    }

    /// The job with some panels locked, now and then all of them.
    pub fn locked(&mut self, mut problem: Problem) -> Problem {
        let percent = [20, 50, 80, 100][self.range(0, 3) as usize];
        for panel in &mut problem.panels {
            panel.locked = self.range(1, 100) <= percent;
        }
        problem
    }

    /// An inside placement of each panel, in an allowed turn that fits the sheet.
    pub fn layout(&mut self, problem: &Problem) -> Vec<Place> {
        let mut layout = Vec::new();
        for (number, panel) in problem.panels.iter().enumerate() {
            layout.push(loop {
                let turn = self.range(0, 3);
                let corner = (self.range(0, problem.l - 1), self.range(0, problem.w - 1));
                let place = Place { turn, corner };
                if panel.o >> turn & 1 == 1 && problem.inside(number, place) {
                    break place;
                }
            });
        }
        layout
    }

    /// A layout in which no two panels conflict, each laid at a random place beside those before it, where a few tries find such places.
    pub fn clear_layout(&mut self, problem: &Problem) -> Option<Vec<Place>> {
        let mut layout: Vec<Place> = Vec::new();
        for panel in 0..problem.panels.len() {
            let mut tries = (0..20).map(|_| self.layout(problem)[panel]);
            layout.push(tries.find(|&place| problem.fits(&layout, panel, place))?);
        }
        Some(layout)
    }

    /// One weight a pair, now and then close to the largest.
    pub fn weights(&mut self, problem: &Problem) -> Vec<u16> {
        let weight = |lcg: &mut Lcg| match lcg.range(0, 3) {
            0 => lcg.range(65_530, 65_535) as u16,
            _ => lcg.range(1, 9) as u16,
        };
        problem.pairs().iter().map(|_| weight(self)).collect()
    }
}
