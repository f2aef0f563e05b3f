//! Painting an image through the original's `composite_band`: the image as the
//! layout that the original reads, and as the plan it would have made.

use crate::engine::cell::Cell;
use crate::engine::compose::{composite_band, BandCanvas, PaintScratch};
use crate::engine::plan::{
    EdgePlan, ElementKind, LabelPlan, PlanElement, PlanParts, RenderPlan, SubgraphPlan,
};
use crate::engine::view::{EdgeRef, LayoutView, NodeRef, PathRef, SelfLoopRef, SubgraphRef};
use crate::graph::Direction;
use crate::image::{self, Image, NodeLook, Path, Unreadable};
use crate::ir::{FlowAxis, NodeKind};
use crate::stubs::color::CellColor;
use crate::stubs::config::LabelPlacementPolicy;
use crate::stubs::style::{LabelPosition, LineWeight, MarkerShape, NodePaintFn, SubgraphBorder};
use crate::{hex_row, text, wrong_use, PortAttachment};
use std::io::{self, BufWriter, Read, Write};
use std::process::ExitCode;

/// How `paint` is to paint: in colour or plain, how many rows at a time.
struct Manner {
    coloured: bool,
    band: usize,
}

fn manner_of(options: &[String]) -> Option<Manner> {
    let mut manner = Manner {
        coloured: false,
        band: usize::MAX,
    };
    let mut options = options.iter();
    while let Some(option) = options.next() {
        match option.as_str() {
            "--colour" => manner.coloured = true,
            "--band" => manner.band = options.next()?.parse().ok().filter(|&rows| rows > 0)?,
            _ => return None,
        }
    }
    Some(manner)
}

pub fn command(options: &[String]) -> io::Result<ExitCode> {
    let Some(manner) = manner_of(options) else {
        return Ok(wrong_use("paint [--colour] [--band N], N at least 1"));
    };
    let mut bytes = Vec::new();
    io::stdin().read_to_end(&mut bytes)?;
    let Some(words) = image::words_of(&bytes) else {
        return unreadable(format!("{} bytes are no whole words", bytes.len()));
    };
    match paint(&words, manner.coloured, manner.band) {
        Ok(sheet) => {
            let mut out = BufWriter::new(io::stdout().lock());
            sheet.write(&mut out)?;
            out.flush()?;
            Ok(ExitCode::SUCCESS)
        }
        Err(why) => unreadable(why.to_string()),
    }
}

fn unreadable(why: String) -> io::Result<ExitCode> {
    writeln!(io::stdout(), "unreadable: {why}")?;
    Ok(ExitCode::FAILURE)
}

/// A painted sheet, row after row.
#[derive(PartialEq, Eq)]
pub struct Sheet {
    pub width: usize,
    pub height: usize,
    pub cells: Vec<u32>,
    /// Empty where painted plain.
    pub colours: Vec<u32>,
    pub coloured: bool,
}

/// Paints the whole sheet in bands of `band` rows, the last one maybe shorter.
pub fn paint(words: &[u32], coloured: bool, band: usize) -> Result<Sheet, Unreadable> {
    let image = Image::read(words)?;
    Ok(Planned::of(&image)?.sheet(&image, coloured, band))
}

/// The whole sheet as one band, plain and coloured.
pub fn paint_both(words: &[u32]) -> Result<[Sheet; 2], Unreadable> {
    let image = Image::read(words)?;
    let planned = Planned::of(&image)?;
    Ok([false, true].map(|coloured| planned.sheet(&image, coloured, usize::MAX)))
}

/// An image as the original's painter is handed it: all that stands when the
/// planning is done.
pub struct Planned<'i> {
    view: ImageView<'i>,
    plan: RenderPlan<'static>,
}

impl<'i> Planned<'i> {
    /// Glyphs have the widths of the image that was planned last.
    pub fn of(image: &'i Image) -> Result<Planned<'i>, Unreadable> {
        if let Some(endless) = image.corner_below_zero() {
            return Err(endless);
        }
        text::use_width_ranges(&image.width_ranges);
        Ok(Planned {
            view: ImageView::of(image),
            plan: plan_of(image),
        })
    }

    fn sheet(&self, image: &Image, coloured: bool, band: usize) -> Sheet {
        let mut scratch = self.scratch(coloured, band);
        let mut sheet = Sheet::empty(image, coloured);
        for (first, rows) in self.bands(band) {
            sheet.take_band(self, &mut scratch, first, rows);
        }
        sheet
    }

    /// What the original keeps from band to band.
    pub fn scratch(&self, coloured: bool, band: usize) -> PaintScratch<'static> {
        let band = band.clamp(1, self.plan.height().max(1));
        PaintScratch::heap_backed(&self.view, &self.plan, coloured, band)
    }

    /// The bands of so many rows: the first row of each, and its rows.
    pub fn bands(&self, band: usize) -> impl Iterator<Item = (usize, usize)> {
        let height = self.plan.height();
        let band = band.clamp(1, height.max(1));
        let firsts = (0..height).step_by(band);
        firsts.map(move |first| (first, band.min(height - first)))
    }

    /// The cells of the largest band.
    #[cfg(timed)]
    pub fn room(&self, band: usize) -> usize {
        self.plan.width() * band.min(self.plan.height())
    }

    /// The original's own call for a band: its canvas, emptied, and the painting.
    pub fn paint_band<'c>(
        &self,
        scratch: &mut PaintScratch<'_>,
        cells: &'c mut [Cell],
        colours: Option<&'c mut [CellColor]>,
        (first, rows): (usize, usize),
    ) -> BandCanvas<'c> {
        let mut canvas = BandCanvas::new(cells, colours, self.plan.width(), first, rows);
        composite_band(&self.view, &self.plan, &mut canvas, scratch);
        canvas
    }
}

impl Sheet {
    fn empty(image: &Image, coloured: bool) -> Sheet {
        Sheet {
            width: image.width,
            height: image.height,
            cells: Vec::new(),
            colours: Vec::new(),
            coloured,
        }
    }

    fn take_band(
        &mut self,
        planned: &Planned<'_>,
        scratch: &mut PaintScratch<'_>,
        first: usize,
        rows: usize,
    ) {
        let room = self.width * rows;
        let mut cells = vec![Cell::EMPTY; room];
        let mut colours = vec![CellColor::DEFAULT; room];
        let plane = self.coloured.then_some(&mut colours[..]);
        let canvas = planned.paint_band(scratch, &mut cells, plane, (first, rows));
        for row in 0..rows {
            self.cells.extend(canvas.row(row).iter().map(|c| c.word()));
            let colours = canvas.color_row(row).unwrap_or_default();
            self.colours.extend(colours.iter().map(|c| c.raw()));
        }
    }

    /// `sheet W H`, the rows of cells and, where coloured, `colours` and the
    /// rows of colours.
    pub fn write(&self, out: &mut impl Write) -> io::Result<()> {
        writeln!(out, "sheet {} {}", self.width, self.height)?;
        self.write_rows(&self.cells, out)?;
        if self.coloured {
            writeln!(out, "colours")?;
            self.write_rows(&self.colours, out)?;
        }
        Ok(())
    }

    fn write_rows(&self, words: &[u32], out: &mut impl Write) -> io::Result<()> {
        for row in 0..self.height {
            let row = &words[row * self.width..][..self.width];
            writeln!(out, "{}", hex_row(row))?;
        }
        Ok(())
    }
}

/// The image as a layout. Labels are made into text once, for the original
/// wants them as `&str`.
struct ImageView<'i> {
    image: &'i Image,
    node_labels: Vec<String>,
    edge_labels: Vec<Option<String>>,
    subgraph_labels: Vec<String>,
}

impl<'i> ImageView<'i> {
    fn of(image: &'i Image) -> ImageView<'i> {
        let nodes = image.nodes.iter();
        let edges = image.edges.iter();
        let subgraphs = image.subgraphs.iter();
        ImageView {
            image,
            node_labels: nodes.map(|n| image.text(n.label)).collect(),
            edge_labels: edges
                .map(|e| e.label.map(|label| image.text(label)))
                .collect(),
            subgraph_labels: subgraphs.map(|s| image.text(s.label)).collect(),
        }
    }

    fn path(&self, path: Path) -> PathRef<'_> {
        match path {
            Path::Direct => PathRef::Direct,
            Path::Corner { bend } => PathRef::Corner { bend_at: bend },
            Path::SideChannel {
                channel,
                span_start,
                span_end,
            } => PathRef::SideChannel {
                channel_at: channel,
                span_start,
                span_end,
            },
            Path::MultiSegment {
                points,
                start_offset,
            } => PathRef::MultiSegment {
                waypoints: self.image.points_of(points),
                start_offset,
            },
            Path::Orthogonal { points } => PathRef::Orthogonal {
                bends: self.image.points_of(points),
            },
            // "Direct, Spline: vertical at from x": control points play no part.
            Path::Spline => PathRef::Spline {
                cp1_x: 0,
                cp1_y: 0,
                cp2_x: 0,
                cp2_y: 0,
            },
        }
    }
}

/// Fields that an image does not have are 0: painting reads none of them.
impl LayoutView for ImageView<'_> {
    fn width(&self) -> usize {
        self.image.width
    }

    fn height(&self) -> usize {
        self.image.height
    }

    fn level_count(&self) -> usize {
        0
    }

    fn direction(&self) -> Direction {
        Direction::TopDown
    }

    fn node_count(&self) -> usize {
        self.image.nodes.len()
    }

    fn node(&self, index: usize) -> NodeRef<'_> {
        let node = &self.image.nodes[index];
        NodeRef {
            id: index,
            label: &self.node_labels[index],
            x: node.x,
            y: node.y,
            width: node.width,
            height: node.height,
            center_x: 0,
            center_y: 0,
            level: 0,
            level_position: 0,
            kind: match node.look {
                NodeLook::Dummy => NodeKind::Dummy,
                _ => NodeKind::Real,
            },
            has_self_loop: node.self_loop.is_some(),
            self_loop_at: node.self_loop,
            edge_index: None,
            // The numbers that our NodeKindTag takes apart again.
            content_tag: match node.look {
                NodeLook::Boxed => 1,
                NodeLook::Blank => 2,
                NodeLook::Simple | NodeLook::Dummy => 0,
            },
        }
    }

    fn node_custom(&self, _index: usize) -> (Option<NodePaintFn>, &str) {
        (None, "")
    }

    fn edge_count(&self) -> usize {
        self.image.edges.len()
    }

    fn edge(&self, index: usize) -> EdgeRef<'_> {
        let edge = &self.image.edges[index];
        EdgeRef {
            from_id: 0,
            to_id: 0,
            from_x: edge.from.0,
            from_y: edge.from.1,
            to_x: edge.to.0,
            to_y: edge.to.1,
            edge_index: index,
            label: self.edge_labels[index].as_deref(),
            label_x: 0,
            label_y: 0,
            directed: true,
            reversed: edge.reversed,
            flow_axis: match edge.flows_along_x {
                true => FlowAxis::X,
                false => FlowAxis::Y,
            },
            path: self.path(edge.path),
            from_port: PortAttachment,
            to_port: PortAttachment,
        }
    }

    fn subgraph_count(&self) -> usize {
        self.image.subgraphs.len()
    }

    fn subgraph(&self, index: usize) -> SubgraphRef<'_> {
        let subgraph = &self.image.subgraphs[index];
        SubgraphRef {
            id: index,
            parent: None,
            label: &self.subgraph_labels[index],
            x: subgraph.x,
            y: subgraph.y,
            width: subgraph.width,
            height: subgraph.height,
        }
    }

    fn self_loop_count(&self) -> usize {
        0
    }

    fn self_loop(&self, _index: usize) -> SelfLoopRef<'_> {
        unreachable!("self_loop_count is 0")
    }
}

fn plan_of(image: &Image) -> RenderPlan<'static> {
    RenderPlan::from_parts(PlanParts {
        width: image.width,
        height: image.height,
        run_capacity: image.run_capacity,
        show_dummy_nodes: image.shows_dummies,
        label_placement: match image.avoids_node_rows {
            true => LabelPlacementPolicy::AvoidNodeRows,
            false => LabelPlacementPolicy::Geometric,
        },
        edges: image.edges.iter().map(edge_plan).collect(),
        subgraphs: image.subgraphs.iter().map(subgraph_plan).collect(),
        labels: image.placed_labels.iter().map(label_plan).collect(),
        elements: image.elements.iter().map(plan_element).collect(),
    })
}

fn line_weight(weight: image::Weight) -> LineWeight {
    match weight {
        image::Weight::Dashed => LineWeight::Dashed,
        image::Weight::Light => LineWeight::Light,
        image::Weight::Double => LineWeight::Double,
    }
}

fn marker_shape(present: bool) -> MarkerShape {
    match present {
        true => MarkerShape::Arrow,
        false => MarkerShape::None,
    }
}

fn edge_plan(edge: &image::Edge) -> EdgePlan {
    EdgePlan {
        color: CellColor::from_raw(edge.colour),
        weight: line_weight(edge.weight),
        label_color: CellColor::from_raw(edge.label_colour),
        marker_end: marker_shape(edge.end_marker),
        marker_start: marker_shape(edge.start_marker),
    }
}

fn subgraph_plan(subgraph: &image::Subgraph) -> SubgraphPlan {
    SubgraphPlan {
        border: match subgraph.border {
            Some(weight) => SubgraphBorder::Line(line_weight(weight)),
            None => SubgraphBorder::None,
        },
        color: CellColor::from_raw(subgraph.colour),
        label_pos: match subgraph.label_at_bottom {
            true => LabelPosition::InsideBottom,
            false => LabelPosition::InsideTop,
        },
    }
}

/// `len` is the planner's own figure; painting does not read it.
fn label_plan(label: &image::PlacedLabel) -> LabelPlan {
    LabelPlan {
        edge_index: label.edge,
        x: label.x,
        y: label.y,
        len: 0,
        placeable: label.placeable,
        row_has_node: label.row_has_node,
    }
}

fn plan_element(element: &image::Element) -> PlanElement {
    PlanElement {
        kind: match element.kind {
            image::ElementKind::Node => ElementKind::Node,
            image::ElementKind::Edge => ElementKind::Edge,
            image::ElementKind::Subgraph => ElementKind::Subgraph,
        },
        index: element.index,
        y_min: element.first_row,
        y_max: element.last_row,
    }
}
