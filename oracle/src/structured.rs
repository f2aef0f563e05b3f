//! Sheets as a planner makes them, each decided by its seed: stations in layers along
//! the flow, edges routed between them, groups around them, labels at the edges. They
//! are larger than the random ones, and everything on them meets something else.
//!
//! All is laid out along the flow and across it, so that both flows have every family.

use crate::codes::{Meant, Target};
use crate::dice::Dice;
use crate::draft::{edge_record, Draft};
use crate::generate::accepted_draft;
use crate::generate::controls::sometimes_put_controls;
use crate::layout::{
    BLANK, BOXED, CORNER, DUMMY, EDGES, END_MARKER_BIT, HEADER_FLAGS_WORD, HEADER_LIMITS,
    INSIDE_BOTTOM_BIT, LABEL_PRESENT_BIT, MULTI_SEGMENT, NODES, ORTHOGONAL, PLACED_LABELS,
    REVERSED_BIT, SELF_LOOP_BIT, SIDE_CHANNEL, SIMPLE, SPLINE, START_MARKER_BIT, SUBGRAPHS,
    WIDTH_RANGES, X_FLOW_BIT,
};

/// The families; an image takes one of them.
pub const FAMILIES: [&str; 6] = [
    "fan-in",
    "fan-out",
    "long chain",
    "dense crossings",
    "lattice",
    "nested groups",
];

/// Labels as they stand on drawings, with wide characters and accents.
const LABELS: [&str; 13] = [
    "",
    "A",
    "Ring",
    "Worm 7",
    "Pinion",
    "\u{6F22}\u{5B57}",
    "M\u{6F22}",
    "e\u{301}tage",
    "\u{AC00}x\u{AC00}y",
    "Azimuth gearbox",
    "~5\u{A0}mm",
    "\u{301}",
    "1:\u{6F22}\u{301}",
];

/// What makes them wide or of width 0, in the order that refusal 5 wants.
const RANGES: [[u32; 3]; 4] = [
    [0x300, 0x36F, 0],
    [0x1100, 0x115F, 2],
    [0x4E00, 0x9FFF, 2],
    [0xAC00, 0xD7A3, 2],
];

/// Mostly none, so that a colour stands beside none and beside others.
const COLOURS: [u32; 6] = [0, 0, 1, 7, 0x00FF_8000, u32::MAX];

/// The number of its family, the image, and what it must get: it is accepted, but for
/// those that have control characters put in.
pub struct Structured {
    pub family: usize,
    pub words: Vec<u32>,
    pub meant: Meant,
}

/// The same for the same seed.
pub fn structured_image(seed: u64) -> Structured {
    let mut dice = Dice::new(seed ^ 0x57A6_C700);
    let family = dice.index(FAMILIES.len());
    let mut plan = Plan::on_a_flow(dice);
    match family {
        0 => plan.fan(true),
        1 => plan.fan(false),
        2 => plan.long_chain(),
        3 => plan.dense_crossings(),
        4 => plan.lattice(),
        _ => plan.nested_groups(),
    }
    let (meant, words) = plan.finish();
    Structured {
        family,
        words,
        meant,
    }
}

/// A place along the flow and across it.
#[derive(Clone, Copy, PartialEq, Eq)]
struct Spot {
    along: u32,
    across: u32,
}

/// A node's box: its first and last cells along the flow, and its middle across.
#[derive(Clone, Copy)]
struct Station {
    along: [u32; 2],
    middle: u32,
}

struct Plan {
    dice: Dice,
    draft: Draft,
    on_x_flow: bool,
    /// The path of every edge, where there is one for all.
    path: Option<u32>,
    /// The first place across the flow at which nothing stands yet.
    free_across: u32,
}

// ---- Laying out ----------------------------------------------------------

impl Plan {
    fn on_a_flow(mut dice: Dice) -> Plan {
        let mut draft = Draft::blank_sheet(0, 0);
        draft.head[HEADER_FLAGS_WORD] = dice.below(4) << 30;
        for range in RANGES {
            draft.add(WIDTH_RANGES, &range);
        }
        let on_x_flow = dice.one_in(2);
        let path = dice.one_in(2).then(|| dice.below(SPLINE + 1));
        Plan {
            dice,
            draft,
            on_x_flow,
            path,
            free_across: 0,
        }
    }

    /// As x and y.
    fn point(&self, spot: Spot) -> [u32; 2] {
        match self.on_x_flow {
            true => [spot.along, spot.across],
            false => [spot.across, spot.along],
        }
    }

    /// How many: mostly a few, seldom many.
    fn some(&mut self, least: u32, most: u32) -> u32 {
        let most = if self.dice.one_in(12) { 3 * most } else { most };
        least + self.dice.below(most - least + 1)
    }

    /// A label that is there for the writing, by chance.
    fn label(&mut self) -> &'static str {
        LABELS[self.dice.index(LABELS.len())]
    }

    /// Stations side by side from a place along the flow on; answers them, and the
    /// first free place after them.
    fn layer(&mut self, along: u32, count: u32) -> (Vec<Station>, u32) {
        let mut across = self.dice.below(3);
        let mut after = along;
        let mut stations = Vec::new();
        for _ in 0..count {
            let (station, end) = self.station(Spot { along, across });
            across = end + self.dice.below(4);
            after = after.max(station.along[1] + 1);
            stations.push(station);
        }
        (stations, after)
    }

    /// A node; answers it and the first free place across the flow beside it.
    fn station(&mut self, spot: Spot) -> (Station, u32) {
        let kind = match self.dice.below(10) {
            0 => BLANK,
            1 => DUMMY,
            2..=4 => SIMPLE,
            _ => BOXED,
        };
        let text = self.label();
        // Now and then too narrow for its label.
        let width = match self.dice.below(6) {
            0 => 1 + self.dice.below(5),
            _ => text.chars().count() as u32 + 4,
        };
        let height = if kind == BOXED { 3 } else { 1 };
        let [x, y] = self.point(spot);
        let [start, count] = self.draft.write(text);
        let mut flags = kind << 30;
        let mut loop_at = [0; 2];
        if self.dice.one_in(7) {
            flags |= SELF_LOOP_BIT;
            loop_at = [x + width, y];
        }
        let [loop_x, loop_y] = loop_at;
        let record = [x, y, width, height, start, count, flags, loop_x, loop_y];
        self.draft.add(NODES, &record);
        let [long, broad] = match self.on_x_flow {
            true => [width, height],
            false => [height, width],
        };
        let end = spot.across + broad;
        self.free_across = self.free_across.max(end);
        let station = Station {
            along: [spot.along, spot.along + long - 1],
            middle: spot.across + broad / 2,
        };
        (station, end)
    }

    /// A gap between two layers, for bends.
    fn gap(&mut self) -> u32 {
        2 + self.dice.below(6)
    }

    /// A group around these places, a cell away from them where there is one.
    fn group(&mut self, from: Spot, to: Spot) {
        let [x, y] = self.point(from).map(|place| place.saturating_sub(1));
        let [end_x, end_y] = self.point(to).map(|place| place + 2);
        let text = self.label();
        let [start, count] = self.draft.write(text);
        let mut flags = self.dice.below(4) << 30;
        if self.dice.one_in(3) {
            flags |= INSIDE_BOTTOM_BIT;
        }
        let colour = self.dice.pick(&COLOURS);
        let (width, height) = (end_x - x, end_y - y);
        let record = [x, y, width, height, start, count, flags, colour];
        self.draft.add(SUBGRAPHS, &record);
    }
}

// ---- Routing -------------------------------------------------------------

impl Plan {
    /// The edge of this number between two stations, there or back.
    fn connect(&mut self, from: Station, to: Station, nth: u32) {
        let forward = from.along[0] <= to.along[0];
        let [leaves, arrives] = if forward { [1, 0] } else { [0, 1] };
        let source = Spot {
            along: from.along[leaves],
            across: from.middle,
        };
        let target = Spot {
            along: to.along[arrives],
            across: to.middle,
        };
        self.edge(source, target, nth);
    }

    fn edge(&mut self, source: Spot, target: Spot, nth: u32) {
        let path = match self.path {
            Some(path) => path,
            None => self.dice.below(SPLINE + 1),
        };
        let abc = self.route(path, source, target, nth);
        let [from, to] = [source, target].map(|spot| self.point(spot));
        let flow = if self.on_x_flow { X_FLOW_BIT } else { 0 };
        let flags = path << 29 | flow | self.looks();
        let mut record = edge_record([from[0], from[1], to[0], to[1]], flags, abc);
        let colours = [(); 2].map(|()| self.dice.pick(&COLOURS));
        record[10..].copy_from_slice(&colours);
        let edge = self.draft.add(EDGES, &record);
        if self.dice.one_in(3) {
            self.label_edge(edge, source, target);
        }
    }

    /// Weight, markers, and whether it is reversed.
    fn looks(&mut self) -> u32 {
        let weight = self.dice.pick(&[1, 2, 2, 2, 3]);
        let chance = [
            (REVERSED_BIT, 12),
            (START_MARKER_BIT, 25),
            (END_MARKER_BIT, 80),
        ];
        let bits = chance.map(|(bit, percent)| if self.dice.percent(percent) { bit } else { 0 });
        bits.iter().sum::<u32>() | weight << 23
    }

    /// The words a, b and c. Edges of one number bend at one place, so that runs meet.
    fn route(&mut self, path: u32, source: Spot, target: Spot, nth: u32) -> [u32; 3] {
        let low = source.along.min(target.along);
        let between = source.along.abs_diff(target.along).saturating_sub(1).max(1);
        let bend = low + 1 + nth % between;
        match path {
            CORNER => [bend, 0, 0],
            SIDE_CHANNEL => {
                let channel = self.free_across + nth % 5;
                let [first, last] = match source.along <= target.along {
                    true => [source.along + 1, target.along.saturating_sub(1)],
                    false => [source.along.saturating_sub(1), target.along + 1],
                };
                [channel, first, last]
            }
            MULTI_SEGMENT => {
                let spots = self.waypoints(source, target);
                let [first, count] = self.add_spots(&spots);
                [first, count, nth % 3]
            }
            ORTHOGONAL => {
                let mut spots = vec![source, target];
                for spot in &mut spots {
                    spot.along = bend;
                }
                if self.dice.one_in(4) {
                    spots.extend(self.detour(spots[1], target));
                }
                let [first, count] = self.add_spots(&spots);
                [first, count, 0]
            }
            _ => [0; 3],
        }
    }

    /// Up to three points on the way, in order along the flow. They keep off its first
    /// cells: a corner below 0 is refused.
    fn waypoints(&mut self, source: Spot, target: Spot) -> Vec<Spot> {
        let count = self.dice.below(4);
        let [from, to] = [source.along, target.along].map(i64::from);
        let spot = |nth: u32, across: u32| Spot {
            along: (from + (to - from) * i64::from(nth + 1) / i64::from(count + 1)).max(3) as u32,
            across,
        };
        let most = self.free_across + 1;
        (0..count)
            .map(|nth| spot(nth, self.dice.below(most)))
            .collect()
    }

    /// Around a cell beside the way to the target.
    fn detour(&mut self, bend: Spot, target: Spot) -> [Spot; 2] {
        let aside = Spot {
            across: bend.across + 1 + self.dice.below(4),
            ..bend
        };
        let on = Spot {
            along: target.along,
            ..aside
        };
        [aside, on]
    }

    fn add_spots(&mut self, spots: &[Spot]) -> [u32; 2] {
        let points: Vec<[u32; 2]> = spots.iter().map(|spot| self.point(*spot)).collect();
        self.draft.add_points(points)
    }

    /// In the middle between the ends, where the planner sees whether a node is in the
    /// row.
    fn label_edge(&mut self, edge: u32, source: Spot, target: Spot) {
        let text = self.label();
        let span = self.draft.write(text);
        let record = &mut self.draft.tables[EDGES][edge as usize];
        record[4] |= LABEL_PRESENT_BIT;
        record[8..10].copy_from_slice(&span);
        let [x, y] = self.point(Spot {
            along: (source.along + target.along) / 2,
            across: (source.across + target.across) / 2,
        });
        let mut nodes = self.draft.tables[NODES].iter();
        let row_has_node = nodes.any(|node| node[1] <= y && y < node[1] + node[3]);
        let placeable = u32::from(self.dice.percent(85));
        let flags = placeable << 31 | u32::from(row_has_node) << 30;
        self.draft.add(PLACED_LABELS, &[edge, x, y, flags]);
    }
}

// ---- The families --------------------------------------------------------

impl Plan {
    /// Many sources and one target, or one source and many targets.
    fn fan(&mut self, into_one: bool) {
        let many = self.some(3, 24);
        let [first, second] = if into_one { [many, 1] } else { [1, many] };
        let start = self.dice.below(4);
        let (sources, after) = self.layer(start, first);
        let along = after + self.gap();
        let (targets, end) = self.layer(along, second);
        let bends = 1 + self.dice.below(4);
        let mut nth = 0;
        for source in &sources {
            for target in &targets {
                self.connect(*source, *target, nth % bends);
                nth += 1;
            }
        }
        if self.dice.one_in(2) {
            self.group_layers(start, end);
        }
    }

    /// One station after the other, with edges that pass over some of them, there and
    /// back.
    fn long_chain(&mut self) {
        let count = self.some(4, 20);
        let mut along = self.dice.below(3);
        let mut chain: Vec<Station> = Vec::new();
        for _ in 0..count {
            let breadth = 1 + self.dice.below(2);
            let (layer, after) = self.layer(along, breadth);
            chain.extend(&layer[..1]);
            along = after + self.gap();
        }
        for (nth, pair) in chain.windows(2).enumerate() {
            self.connect(pair[0], pair[1], nth as u32);
        }
        for nth in 0..count / 2 {
            let [one, other] = [(); 2].map(|()| self.dice.index(chain.len()));
            if one != other {
                self.connect(chain[one], chain[other], nth);
            }
        }
        if self.dice.one_in(3) {
            self.group_layers(chain[1].along[0], chain[2].along[1]);
        }
    }

    /// Every station of a layer to every one of the next, or each to the one opposite.
    fn dense_crossings(&mut self) {
        // Three layers of sixteen stations have half as many edges as there may be.
        let breadth = self.some(3, 8).min(16);
        let every = self.dice.one_in(2);
        let mut along = self.dice.below(3);
        let mut before: Vec<Station> = Vec::new();
        for _ in 0..2 + self.dice.below(2) {
            let (layer, after) = self.layer(along, breadth);
            for (one, source) in before.iter().enumerate() {
                for (other, target) in layer.iter().enumerate() {
                    if every || one + other + 1 == layer.len() {
                        self.connect(*source, *target, (one + other) as u32);
                    }
                }
            }
            before = layer;
            along = after + self.gap() + breadth;
        }
    }

    /// Edges along both flows across one another, through groups.
    fn lattice(&mut self) {
        let (lines, pitch) = (self.some(3, 16), 2 + self.dice.below(3));
        let length = lines * pitch + 2;
        self.free_across = length;
        for flow in [false, true] {
            self.on_x_flow = flow;
            for nth in 0..lines {
                let across = 1 + nth * pitch;
                let aside = across + self.dice.below(3) * pitch;
                let [mut one, mut other] = [(0, across), (length, aside)];
                if self.dice.one_in(4) {
                    std::mem::swap(&mut one, &mut other);
                }
                let spot = |(along, across): (u32, u32)| Spot { along, across };
                self.edge(spot(one), spot(other), nth);
            }
        }
        for nth in 0..1 + self.dice.below(4) {
            let corner = 1 + nth * pitch;
            let [from, to] = [corner, corner + 2 + self.dice.below(length)].map(|place| Spot {
                along: place,
                across: place,
            });
            self.group(from, to);
        }
        let at = Spot {
            along: self.dice.below(length),
            across: self.dice.below(length),
        };
        self.station(at);
    }

    /// Chains side by side, each in a group, all of them in one, edges between them.
    fn nested_groups(&mut self) {
        let mut stations = Vec::new();
        let mut across = 2;
        let mut longest = 0;
        for _ in 0..self.some(2, 6) {
            let mut along = 3;
            let mut end = across;
            for _ in 0..2 + self.dice.below(3) {
                let (station, beside) = self.station(Spot { along, across });
                along = station.along[1] + 1 + self.gap();
                end = end.max(beside);
                stations.push(station);
            }
            let [from, to] =
                [(2, across), (along, end)].map(|(along, across)| Spot { along, across });
            self.group(from, to);
            across = end + 4 + self.dice.below(3);
            longest = longest.max(along);
        }
        let [from, to] =
            [(1, 1), (longest + 2, across)].map(|(along, across)| Spot { along, across });
        self.group(from, to);
        for nth in 0..stations.len() as u32 {
            let [one, other] = [(); 2].map(|()| stations[self.dice.index(stations.len())]);
            self.connect(one, other, nth);
        }
    }

    /// A group from one place along the flow to another, over all that stands there.
    fn group_layers(&mut self, from: u32, to: u32) {
        let [from, to] =
            [(from, 1), (to, self.free_across)].map(|(along, across)| Spot { along, across });
        self.group(from, to);
    }

    /// Listed exactly, with the run capacity that it needs.
    fn finish(mut self) -> Target {
        self.set_sheet();
        let mut draft = accepted_draft(&self.draft);
        let meant = match sometimes_put_controls(&mut self.dice, &mut draft) {
            Some(place) => Meant::at(13, place),
            None => Meant::at(0, 0),
        };
        (meant, draft.to_words())
    }

    /// The sheet around all of it, with a margin, or now and then cut short, so that
    /// things leave it.
    fn set_sheet(&mut self) {
        let [mut width, mut height] = [0, 0];
        for table in [NODES, SUBGRAPHS] {
            for record in &self.draft.tables[table] {
                width = width.max(record[0] + record[2] + 6);
                height = height.max(record[1] + record[3] + 6);
            }
        }
        for record in &self.draft.tables[EDGES] {
            width = width.max(record[0].max(record[2]) + 4);
            height = height.max(record[1].max(record[3]) + 4);
        }
        for extent in [&mut width, &mut height] {
            if self.dice.one_in(8) {
                *extent = 1 + self.dice.below(*extent);
            }
        }
        self.draft.head[0] = width.min(HEADER_LIMITS[0]);
        self.draft.head[1] = height;
    }
}
