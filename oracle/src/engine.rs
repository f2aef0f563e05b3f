//! The original's modules, included as they were cut out (see extract.rs), each
//! under its own name so that its paths resolve. What we add stands in the same
//! module only where a private field has to be filled or read.

// Found by the original as `super::color` and so on.
use crate::stubs::{color, config, node_content, region, style};

#[allow(dead_code)]
pub(crate) mod cell {
    include!(concat!(env!("PIVOTDAWN_EXTRACTED"), "/cell.rs"));

    impl Cell {
        /// The cell as document 01 counts its bits.
        pub(crate) fn word(self) -> u32 {
            self.0
        }
    }
}

#[allow(dead_code)]
pub(crate) mod mem {
    include!(concat!(env!("PIVOTDAWN_EXTRACTED"), "/mem.rs"));
}

#[allow(dead_code)]
pub(crate) mod view {
    use crate::graph::Direction;
    use crate::ir::NodeKind;

    include!(concat!(env!("PIVOTDAWN_EXTRACTED"), "/view.rs"));
}

#[allow(dead_code)]
pub(crate) mod compose {
    include!(concat!(env!("PIVOTDAWN_EXTRACTED"), "/compose.rs"));
}

#[allow(dead_code)]
pub(crate) mod plan {
    use super::cell::Dir;
    use super::color::CellColor;
    use super::config::LabelPlacementPolicy;
    use super::mem::PlanBuf;
    use super::style::{LabelPosition, LineWeight, MarkerShape, SubgraphBorder};

    include!(concat!(env!("PIVOTDAWN_EXTRACTED"), "/plan.rs"));

    /// A plan's parts as an image states them.
    pub(crate) struct PlanParts {
        pub width: usize,
        pub height: usize,
        pub run_capacity: usize,
        pub show_dummy_nodes: bool,
        pub label_placement: LabelPlacementPolicy,
        pub edges: Vec<EdgePlan>,
        pub subgraphs: Vec<SubgraphPlan>,
        pub labels: Vec<LabelPlan>,
        pub elements: Vec<PlanElement>,
    }

    impl RenderPlan<'static> {
        /// In place of the original's planner: "Not carried: planning".
        pub(crate) fn from_parts(parts: PlanParts) -> Self {
            RenderPlan {
                width: parts.width,
                height: parts.height,
                level_tops: PlanBuf::Heap(Vec::new()),
                edge_plans: PlanBuf::Heap(parts.edges),
                subgraph_plans: PlanBuf::Heap(parts.subgraphs),
                labels: PlanBuf::Heap(parts.labels),
                index: PlanBuf::Heap(parts.elements),
                legend: PlanBuf::Heap(Vec::new()),
                self_loop_plans: PlanBuf::Heap(Vec::new()),
                run_capacity: parts.run_capacity,
                show_dummy_nodes: parts.show_dummy_nodes,
                label_placement: parts.label_placement,
            }
        }
    }
}
