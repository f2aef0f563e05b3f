//! Cuts out of the original Rust what the oracle compiles, without changing a
//! character of it. A program of its own, run before the oracle is compiled:
//!
//!     extract <folder of the original> <folder for the cuts>
//!
//! It relies on the original being laid out by rustfmt: an item ends at the
//! first line that is a closing brace as far in as the item's first line.

use std::fs;
use std::path::Path;
use std::process::ExitCode;

/// One piece to take from a file.
enum Cut {
    /// All but the leading `//!` lines, which an included file may not have.
    WholeFile,
    /// The item whose first line begins so, with the comments and attributes above it.
    Item(&'static str),
    /// An impl's first line, only the named methods of it, and its closing brace.
    Methods(&'static str, &'static [&'static str]),
}

use Cut::{Item, Methods, WholeFile};

const FILES: &[(&str, &[Cut])] = &[
    ("cell.rs", &[WholeFile]),
    ("mem.rs", &[WholeFile]),
    ("compose.rs", &[WholeFile]),
    ("view.rs", VIEW),
    ("plan.rs", PLAN),
];

/// What the painter reads a layout through; the two implementations for the
/// original's own layouts stay behind.
const VIEW: &[Cut] = &[
    Item("pub(crate) struct NodeRef<'a> {"),
    Item("pub(crate) enum PathRef<'a> {"),
    Item("pub(crate) struct EdgeRef<'a> {"),
    Item("pub(crate) struct SelfLoopRef<'a> {"),
    Item("pub(crate) struct SubgraphRef<'a> {"),
    Item("pub(crate) trait LayoutView {"),
];

/// The plan as the painter reads it; the planner stays behind.
const PLAN: &[Cut] = &[
    Item("pub(crate) enum ElementKind {"),
    Item("pub(crate) struct PlanElement {"),
    Item("pub(crate) struct EdgePlan {"),
    Item("pub(crate) struct SubgraphPlan {"),
    Item("pub(crate) struct LabelPlan {"),
    Item("impl LabelPlan {"),
    Item("impl EdgePlan {"),
    Item("pub struct RenderPlan<'buf> {"),
    Methods(
        "impl<'buf> RenderPlan<'buf> {",
        &[
            "    pub fn width(&self)",
            "    pub fn height(&self)",
            "    pub(crate) fn label_placement(&self)",
            "    pub(crate) fn show_dummy_nodes(&self)",
            "    pub(crate) fn edge_plan(&self",
            "    pub(crate) fn subgraph_plan(&self",
            "    pub(crate) fn labels(&self)",
            "    pub(crate) fn elements(&self)",
            "    pub(crate) fn run_capacity(&self)",
        ],
    ),
    Item("pub(super) fn for_each_orthogonal_leg("),
    Item("pub(super) type MarkerCell ="),
    Item("pub(super) fn orthogonal_markers("),
];

fn main() -> ExitCode {
    let folders: Vec<String> = std::env::args().skip(1).collect();
    let [original, cuts] = folders.as_slice() else {
        eprintln!("extract <folder of the original> <folder for the cuts>");
        return ExitCode::FAILURE;
    };
    for (name, wanted) in FILES {
        let from = Path::new(original).join("render/engine").join(name);
        let to = Path::new(cuts).join(name);
        if let Err(why) = extract_file(&from, wanted, &to) {
            eprintln!("extract: {}: {why}", from.display());
            return ExitCode::FAILURE;
        }
    }
    ExitCode::SUCCESS
}

fn extract_file(from: &Path, wanted: &[Cut], to: &Path) -> Result<(), String> {
    let text = fs::read_to_string(from).map_err(|e| e.to_string())?;
    let lines: Vec<&str> = text.lines().collect();
    let mut taken = Vec::new();
    for cut in wanted {
        match cut {
            WholeFile => taken.extend(after_inner_docs(&lines)?),
            Item(begins) => taken.extend(item(&lines, begins)?),
            Methods(heading, methods) => {
                taken.push(lines[only_line(&lines, heading)?]);
                for begins in *methods {
                    taken.extend(item(&lines, begins)?);
                }
                taken.push("}");
            }
        }
    }
    fs::write(to, taken.join("\n") + "\n").map_err(|e| e.to_string())
}

fn after_inner_docs<'t>(lines: &[&'t str]) -> Result<Vec<&'t str>, String> {
    let first = lines
        .iter()
        .position(|l| !l.starts_with("//!"))
        .ok_or("nothing but its own description")?;
    Ok(lines[first..].to_vec())
}

fn item<'t>(lines: &[&'t str], begins: &str) -> Result<Vec<&'t str>, String> {
    let opening = only_line(lines, begins)?;
    let closing = last_line(lines, opening).ok_or(format!("no end of `{begins}`"))?;
    Ok(lines[first_line(lines, opening)..=closing].to_vec())
}

/// The one line that begins so: none or several means that the original is not
/// the text this list was made for.
fn only_line(lines: &[&str], begins: &str) -> Result<usize, String> {
    let found: Vec<usize> = (0..lines.len())
        .filter(|&i| lines[i].starts_with(begins))
        .collect();
    match found.as_slice() {
        [one] => Ok(*one),
        [] => Err(format!("no line begins with `{begins}`")),
        many => Err(format!("{} lines begin with `{begins}`", many.len())),
    }
}

fn first_line(lines: &[&str], opening: usize) -> usize {
    let belongs = |l: &str| l.starts_with("//") || l.starts_with("#[");
    let above = lines[..opening].iter().rev();
    opening - above.take_while(|l| belongs(l.trim_start())).count()
}

fn last_line(lines: &[&str], opening: usize) -> Option<usize> {
    let first = lines[opening];
    if first.ends_with(';') {
        return Some(opening);
    }
    let indent = &first[..first.len() - first.trim_start().len()];
    let closing = format!("{indent}}}");
    (opening..lines.len()).find(|&i| lines[i] == closing)
}
