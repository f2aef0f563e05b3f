//! What the original names and its folder does not hold, written anew and no
//! longer than painting needs. Document 01 decides what each of these does;
//! README.md has the table.

/// The original's errors; only the arena can raise one, and it is never used.
#[derive(Debug, Clone, Copy)]
pub enum GraphError {
    #[allow(dead_code)]
    RenderCanvasTooSmall { needed: usize, got: usize },
}

/// Where an edge meets a node; painting never looks.
#[derive(Debug, Clone, Copy, Default)]
pub struct PortAttachment;

/// Glyph widths and fitting.
pub mod text {
    use crate::image::WidthRange;
    use std::cell::RefCell;

    thread_local! {
        static RANGES: RefCell<Ranges> = const { RefCell::new(Ranges::none()) };
    }

    struct Ranges {
        list: Vec<WidthRange>,
        /// Each above the one before it, as refusal 5 demands: then a range is
        /// found by halving, so that the original is not timed on a slow stub.
        in_order: bool,
    }

    impl Ranges {
        const fn none() -> Ranges {
            Ranges {
                list: Vec::new(),
                in_order: true,
            }
        }

        fn holding(&self, point: u32) -> Option<&WidthRange> {
            if self.in_order {
                let at = self.list.partition_point(|r| r.last < point);
                return self.list.get(at).filter(|r| r.first <= point);
            }
            let mut ranges = self.list.iter();
            ranges.find(|r| r.first <= point && point <= r.last)
        }
    }

    /// The ranges of the image about to be painted: the original asks for a
    /// width without saying in which image.
    pub fn use_width_ranges(ranges: &[WidthRange]) {
        let kept = Ranges {
            list: ranges.to_vec(),
            in_order: ranges.iter().all(|r| r.first <= r.last)
                && ranges.windows(2).all(|two| two[0].last < two[1].first),
        };
        RANGES.with(|r| *r.borrow_mut() = kept);
    }

    /// "Width range: first, last, width 0 or 2; all others 1."
    pub fn char_width(ch: char) -> usize {
        RANGES.with(|ranges| {
            let ranges = ranges.borrow();
            ranges.holding(ch as u32).map_or(1, |r| r.width)
        })
    }

    /// "The fitting part is the longest prefix of at most [so many] columns",
    /// with the columns that it takes.
    pub fn fit_prefix(text: &str, columns: usize) -> (&str, usize) {
        let mut taken = 0;
        for (at, ch) in text.char_indices() {
            let width = char_width(ch);
            if taken + width > columns {
                return (&text[..at], taken);
            }
            taken += width;
        }
        (text, taken)
    }
}

/// Layout kinds.
pub mod ir {
    #[derive(Debug, Clone, Copy, PartialEq, Eq)]
    pub enum NodeKind {
        Real,
        Dummy,
    }

    #[derive(Debug, Clone, Copy, PartialEq, Eq)]
    pub enum FlowAxis {
        Y,
        X,
    }
}

/// The graph's direction, which painting never asks for, and the arena.
pub mod graph {
    #[derive(Debug, Clone, Copy)]
    pub enum Direction {
        TopDown,
    }

    pub mod arena {
        use std::marker::PhantomData;

        /// "Not carried: arena." Everything here stands on the heap.
        pub struct Arena<'a>(PhantomData<&'a mut [u8]>);

        impl<'a> Arena<'a> {
            pub fn alloc_slice_default<T: Default>(&self, _: usize) -> Option<&'a mut [T]> {
                None
            }
        }
    }
}

/// "Colours are any u32."
pub mod color {
    #[derive(Debug, Clone, Copy, PartialEq, Eq, Default)]
    pub struct CellColor(u32);

    impl CellColor {
        /// "Empty cells and colour 0"; "Nodes, colour 0."
        pub const DEFAULT: CellColor = CellColor(0);

        pub fn from_raw(raw: u32) -> CellColor {
            CellColor(raw)
        }

        pub fn raw(self) -> u32 {
            self.0
        }

        /// Subgraph: "colour (0 keeps what is there)".
        pub fn is_set(self) -> bool {
            self.0 != 0
        }
    }
}

/// Label policy: "0 Geometric, 1 AvoidNodeRows".
pub mod config {
    #[derive(Debug, Clone, Copy, PartialEq, Eq)]
    pub enum LabelPlacementPolicy {
        Geometric,
        AvoidNodeRows,
    }
}

/// Styles as a plan holds them.
pub mod style {
    use super::region::{NodePaintCtx, NodeRegion};
    use crate::engine::cell::Weight;

    /// Edge weight: "1 Dashed, 2 Light, 3 Double".
    #[derive(Debug, Clone, Copy, PartialEq, Eq, Default)]
    pub enum LineWeight {
        Dashed,
        #[default]
        Light,
        Double,
    }

    impl LineWeight {
        pub(crate) fn arm(self) -> Weight {
            match self {
                LineWeight::Dashed => Weight::Dashed,
                LineWeight::Light => Weight::Light,
                LineWeight::Double => Weight::Double,
            }
        }
    }

    /// Border: "0 none, else as edge weight".
    #[derive(Debug, Clone, Copy, PartialEq, Eq, Default)]
    pub enum SubgraphBorder {
        #[default]
        None,
        Line(LineWeight),
    }

    impl SubgraphBorder {
        pub(crate) fn arm(self) -> Option<Weight> {
            match self {
                SubgraphBorder::None => None,
                SubgraphBorder::Line(weight) => Some(weight.arm()),
            }
        }
    }

    /// Start and end marker: one bit each.
    #[derive(Debug, Clone, Copy, PartialEq, Eq, Default)]
    pub enum MarkerShape {
        #[default]
        None,
        Arrow,
    }

    /// Label position: "0 InsideTop, 1 InsideBottom".
    #[derive(Debug, Clone, Copy, PartialEq, Eq, Default)]
    pub enum LabelPosition {
        #[default]
        InsideTop,
        InsideBottom,
    }

    pub type NodePaintFn = fn(&mut NodeRegion, NodePaintCtx<'_>);
}

/// "Not carried: custom painters." No view here ever hands one out.
pub mod region {
    use super::color::CellColor;
    use crate::engine::compose::BandCanvas;

    pub struct NodeRegion;

    impl NodeRegion {
        pub(crate) fn new(
            _canvas: &mut BandCanvas<'_>,
            _x: usize,
            _y: usize,
            _width: usize,
            _height: usize,
            _color: CellColor,
        ) -> NodeRegion {
            NodeRegion
        }
    }

    #[allow(dead_code)]
    pub struct NodePaintCtx<'a> {
        pub node_id: usize,
        pub label: &'a str,
        pub width: usize,
        pub height: usize,
        pub visible_rows: (usize, usize),
        pub payload: &'a str,
    }
}

/// How a node is drawn: "0 simple, 1 boxed, 2 blank". Blank is the original's
/// custom node that has no painter.
pub mod node_content {
    pub enum NodeKindTag {
        Simple,
        Boxed,
        Custom,
    }

    impl NodeKindTag {
        pub fn from_u8(tag: u8) -> NodeKindTag {
            match tag {
                1 => NodeKindTag::Boxed,
                2 => NodeKindTag::Custom,
                _ => NodeKindTag::Simple,
            }
        }
    }
}
