//! What the images of a comparison held: of each kind of thing, in how many painted
//! images it stood.

use crate::as_text::CONTINUATION;
use crate::image::{Image, NodeLook, Path, Span, Weight};
#[cfg(product)]
use std::io::{self, Write};

/// On Y flow and on X flow, by the numbers of the paths.
const PATHS: [[&str; 2]; 6] = [
    ["Direct on Y flow", "Direct on X flow"],
    ["Corner on Y flow", "Corner on X flow"],
    ["SideChannel on Y flow", "SideChannel on X flow"],
    ["MultiSegment on Y flow", "MultiSegment on X flow"],
    ["Orthogonal on Y flow", "Orthogonal on X flow"],
    ["Spline on Y flow", "Spline on X flow"],
];
const WEIGHTS: [&str; 3] = ["Dashed edge", "Light edge", "Double edge"];
const MARKERS: [&str; 3] = ["start marker", "end marker", "reversed edge"];
const POLICIES: [&str; 2] = ["policy Geometric", "policy AvoidNodeRows"];
const DUMMIES: [&str; 2] = ["dummies hidden", "dummies shown"];
const NODES: [&str; 5] = [
    "simple node",
    "boxed node",
    "blank node",
    "dummy node",
    "self-loop",
];
const BORDERS: [&str; 4] = [
    "no border",
    "Dashed border",
    "Light border",
    "Double border",
];
const POSITIONS: [&str; 2] = ["label InsideTop", "label InsideBottom"];
const PLACED: [&str; 2] = ["placed label painted", "placed label withheld"];
const WIDTHS: [&str; 3] = [
    "glyph of width 0 in a label",
    "glyph of width 1 in a label",
    "glyph of width 2 in a label",
];
/// Just outside of what code 13 refuses.
const NEIGHBOURS: [&str; 3] = [
    "glyph 0020 in a label",
    "glyph 007E in a label",
    "glyph 00A0 in a label",
];
const PICTURE: [&str; 2] = ["wide character in the picture", "runs"];

/// All of them, in the order in which they are told.
fn features() -> impl Iterator<Item = &'static str> {
    let groups: [&[&str]; 11] = [
        &WEIGHTS,
        &MARKERS,
        &POLICIES,
        &DUMMIES,
        &NODES,
        &BORDERS,
        &POSITIONS,
        &PLACED,
        &WIDTHS,
        &NEIGHBOURS,
        &PICTURE,
    ];
    let rest = groups.into_iter().flatten().copied();
    PATHS.into_iter().flatten().chain(rest)
}

/// In how many images each feature stood.
#[derive(Clone)]
pub struct Coverage {
    counts: Vec<(&'static str, usize)>,
    images: usize,
}

impl Coverage {
    pub fn none() -> Coverage {
        Coverage {
            counts: features().map(|name| (name, 0)).collect(),
            images: 0,
        }
    }

    /// A painted image, its run count and its cells.
    pub fn count(&mut self, words: &[u32], runs: u32, cells: &[u32]) {
        let image = Image::read(words).unwrap_or_else(|why| panic!("a painted image: {why}"));
        let mut seen = Vec::new();
        see_edges(&image, &mut seen);
        see_boxes(&image, &mut seen);
        see_labels(&image, &mut seen);
        seen.push(POLICIES[usize::from(image.avoids_node_rows)]);
        seen.push(DUMMIES[usize::from(image.shows_dummies)]);
        let in_the_picture = [cells.contains(&CONTINUATION), runs > 0];
        seen.extend(only(PICTURE, in_the_picture));
        self.images += 1;
        for (name, count) in &mut self.counts {
            *count += usize::from(seen.contains(name));
        }
    }

    #[cfg(product)]
    pub fn add(&mut self, other: &Coverage) {
        self.images += other.images;
        for ((_, count), (_, more)) in self.counts.iter_mut().zip(&other.counts) {
            *count += more;
        }
    }

    /// What no image held.
    pub fn missing(&self) -> Vec<&'static str> {
        let missing = self.counts.iter().filter(|(_, count)| *count == 0);
        missing.map(|(name, _)| *name).collect()
    }

    #[cfg(product)]
    pub fn write(&self, out: &mut impl Write) -> io::Result<()> {
        writeln!(out, "painted images: {}, of which with", self.images)?;
        for (name, count) in &self.counts {
            writeln!(out, "  {name}: {count}")?;
        }
        Ok(())
    }
}

/// The names that apply.
fn only<const N: usize>(
    names: [&'static str; N],
    apply: [bool; N],
) -> impl Iterator<Item = &'static str> {
    let both = names.into_iter().zip(apply);
    both.filter(|(_, applies)| *applies).map(|(name, _)| name)
}

fn weight_number(weight: Weight) -> usize {
    match weight {
        Weight::Dashed => 0,
        Weight::Light => 1,
        Weight::Double => 2,
    }
}

fn see_edges(image: &Image, seen: &mut Vec<&'static str>) {
    for edge in &image.edges {
        let path = match edge.path {
            Path::Direct => 0,
            Path::Corner { .. } => 1,
            Path::SideChannel { .. } => 2,
            Path::MultiSegment { .. } => 3,
            Path::Orthogonal { .. } => 4,
            Path::Spline => 5,
        };
        seen.push(PATHS[path][usize::from(edge.flows_along_x)]);
        seen.push(WEIGHTS[weight_number(edge.weight)]);
        let markers = [edge.start_marker, edge.end_marker, edge.reversed];
        seen.extend(only(MARKERS, markers));
    }
}

fn see_boxes(image: &Image, seen: &mut Vec<&'static str>) {
    for node in &image.nodes {
        let kind = match node.look {
            NodeLook::Simple => 0,
            NodeLook::Boxed => 1,
            NodeLook::Blank => 2,
            NodeLook::Dummy => 3,
        };
        seen.push(NODES[kind]);
        seen.extend(node.self_loop.map(|_| NODES[4]));
    }
    for subgraph in &image.subgraphs {
        let border = subgraph
            .border
            .map_or(0, |weight| 1 + weight_number(weight));
        seen.push(BORDERS[border]);
        if subgraph.label.count > 0 {
            seen.push(POSITIONS[usize::from(subgraph.label_at_bottom)]);
        }
    }
}

fn see_labels(image: &Image, seen: &mut Vec<&'static str>) {
    for label in &image.placed_labels {
        let withheld = image.avoids_node_rows && label.row_has_node;
        let is_painted = label.placeable && !withheld && image.edges[label.edge].label.is_some();
        seen.push(PLACED[usize::from(!is_painted)]);
    }
    let of_nodes = image.nodes.iter().map(|node| node.label);
    let of_subgraphs = image.subgraphs.iter().map(|subgraph| subgraph.label);
    let of_edges = image.edges.iter().filter_map(|edge| edge.label);
    for Span { start, count } in of_nodes.chain(of_subgraphs).chain(of_edges) {
        for glyph in &image.glyphs[start..][..count] {
            seen.push(WIDTHS[width_of(image, *glyph)]);
            let is_neighbour = [' ', '~', '\u{A0}'].map(|neighbour| neighbour == *glyph);
            seen.extend(only(NEIGHBOURS, is_neighbour));
        }
    }
}

fn width_of(image: &Image, glyph: char) -> usize {
    let point = glyph as u32;
    let at = image
        .width_ranges
        .partition_point(|range| range.last < point);
    let range = image
        .width_ranges
        .get(at)
        .filter(|range| range.first <= point);
    range.map_or(1, |range| range.width)
}
