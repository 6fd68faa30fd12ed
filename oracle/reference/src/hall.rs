//! A hall held by the Rust.

use std::collections::BTreeMap;
use std::panic::{AssertUnwindSafe, catch_unwind};

use calls::{Judge, Portal, PortalGraph, RustPlan, Step, Window, panic_text};

use crate::flowfields::dimensions::Dimensions;
use crate::flowfields::fields::Field;
use crate::flowfields::fields::cost_field::CostField;
use crate::flowfields::portal::{PortalNode, Portals, Windows};
use crate::flowfields::route::RouteStep;
use crate::flowfields::sectors::SectorID;
use crate::flowfields::sectors::sector_cost::SectorCostFields;
use crate::layout;

/// The Rust's state of a hall.
#[derive(Clone)]
pub struct Hall {
    columns: u8,
    rows: u8,
    scale: u8,
    dimensions: Dimensions,
    costs: SectorCostFields,
    portals: Portals,
}

impl Judge for Hall {
    fn plan(values: [f32; 4]) -> RustPlan {
        let [size_x, size_y, unit, radius] = values;
        let planned = catch_unwind(|| Dimensions::new((0.0, 0.0), (size_x, size_y), unit, radius));
        match planned {
            Ok(dimensions) => Ok((
                dimensions.get_sector_column_count(),
                dimensions.get_sector_row_count(),
                dimensions.get_actor_scale(),
            )),
            Err(panic) => Err(panic_text(panic.as_ref())),
        }
    }

    fn build(measures: [u8; 3], base: &[u8]) -> Self {
        let dimensions = dimensions(measures);
        let base = fields(base, measures[1].into());
        let costs = SectorCostFields::from_base(base, &dimensions);
        let portals = Portals::new(&costs);
        Hall::of_parts(measures, costs, portals)
    }

    fn from_store(store: &[u8]) -> Self {
        let measures = [store[0], store[1], store[2]];
        let rows = usize::from(store[1]);
        let cells = usize::from(store[0]) * rows * 100;
        let base = fields(&store[4..4 + cells], rows);
        let scaled = fields(&store[4 + cells..4 + 2 * cells], rows);
        let costs = SectorCostFields::from_parts(base, scaled);
        let marks = &store[4 + 2 * cells..][..cells / 100 * 8];
        let portals = Portals::from_windows(windows_of_marks(marks, rows), &costs);
        Hall::of_parts(measures, costs, portals)
    }

    fn store(&self) -> Vec<u8> {
        let mut store = vec![self.columns, self.rows, self.scale, 0];
        for fields in [self.costs.get_base_costs(), self.costs.get_scaled_costs()] {
            for field in fields.values() {
                store.extend(field.get());
            }
        }
        for windows in self.portals.get_portals().values() {
            let windows = windows.get_all();
            for side in layout::SIDES {
                store.extend(layout::mark(side, windows.iter()).to_le_bytes());
            }
        }
        store
    }

    fn change(&mut self, floor_number: usize, cost: u8) -> bool {
        let before = self.clone();
        let changed = catch_unwind(AssertUnwindSafe(|| self.set_cost(floor_number, cost)));
        if changed.is_err() {
            *self = before;
        }
        changed.is_ok()
    }

    fn windows(&self, sector: usize) -> Vec<Window> {
        let sector = layout::sector_id(sector, self.rows.into());
        let windows = self.portals.get_portals()[&sector].get_all();
        windows.iter().map(layout::window).collect()
    }

    fn route(&self, source: usize, goal: usize) -> Option<Vec<Step>> {
        let (source_sector, source_cell) = layout::place_on_floor(source, self.rows.into());
        let (goal_sector, goal_cell) = layout::place_on_floor(goal, self.rows.into());
        let route = self.portals.find_path(
            &source_sector,
            &source_cell,
            &goal_sector,
            &goal_cell,
            &self.costs,
        );
        route.map(|steps| steps.iter().map(step).collect())
    }

    fn portal_graph(&self) -> PortalGraph {
        let nodes = self.portals.get_nodes();
        let mut listed: Vec<_> = nodes
            .iter()
            .map(|(node, at)| (self.portal(node), *at))
            .collect();
        listed.sort_by_key(|(portal, _)| (portal.sector, portal.window.side, portal.window.first));
        let numbers: BTreeMap<_, _> = listed.iter().map(|(_, at)| *at).zip(0..).collect();
        let edges_of = |at| {
            let edges = self.portals.get_edges(at).into_iter();
            let mut edges: Vec<_> = edges
                .map(|(to, weight)| (numbers[&to], weight as u32))
                .collect();
            edges.sort();
            edges
        };
        PortalGraph {
            portals: listed.iter().map(|(portal, _)| *portal).collect(),
            edges: listed.iter().map(|(_, at)| edges_of(*at)).collect(),
        }
    }

    fn moves(&self, sector: usize, from: usize, to: usize) -> Option<u32> {
        let graph = &self.costs.get_graphs()[&layout::sector_id(sector, self.rows.into())];
        let (from, to) = (from as u16, to as u16);
        petgraph::algo::astar(
            graph,
            from.into(),
            |node| node == to.into(),
            |edge| *edge.weight(),
            |_| 0,
        )
        .map(|(moves, _)| moves.into())
    }
}

impl Hall {
    fn of_parts(measures: [u8; 3], costs: SectorCostFields, portals: Portals) -> Self {
        let [columns, rows, scale] = measures;
        let mut hall = Hall {
            columns,
            rows,
            scale,
            dimensions: dimensions(measures),
            costs,
            portals,
        };
        hall.tell_order();
        hall
    }

    /// The change itself, which may panic and leave the hall altered.
    pub fn set_cost(&mut self, floor_number: usize, cost: u8) {
        let (sector, cell) = layout::place_on_floor(floor_number, self.rows.into());
        self.costs
            .set_field_cost(&sector, &cell, cost, &self.dimensions);
        self.portals.update_portals(&sector, &self.costs);
        self.tell_order();
    }

    /// Scales every sector anew from its base costs, and makes no graph.
    pub fn scale_again(&mut self) {
        self.costs.scale_all_costfields(&self.dimensions);
    }

    /// The stand-in for the search needs to know the order of portals.
    fn tell_order(&mut self) {
        #[cfg(feature = "standin")]
        self.portals.rank_nodes();
    }

    fn portal(&self, node: &PortalNode) -> Portal {
        let (sector, window) = node.parts();
        Portal {
            sector: layout::sector_number(&sector, self.rows.into()),
            window: layout::window(&window),
            midpoint: window.midpoint().as_1d_index() as u8,
        }
    }
}

/// A floor of unit 1 whose trolley's radius is the scale.
fn dimensions([columns, rows, scale]: [u8; 3]) -> Dimensions {
    let size = (f32::from(columns) * 10.0, f32::from(rows) * 10.0);
    Dimensions::new((0.0, 0.0), size, 1.0, f32::from(scale))
}

/// Costs by floor number as the Rust's fields.
fn fields(costs: &[u8], rows: usize) -> BTreeMap<SectorID, CostField> {
    let sectors = costs.chunks(100).enumerate();
    sectors
        .map(|(number, costs)| {
            (
                layout::sector_id(number, rows),
                CostField::from_costs(costs),
            )
        })
        .collect()
}

/// Side marks, four of two bytes for each sector, as the Rust's windows.
fn windows_of_marks(marks: &[u8], rows: usize) -> BTreeMap<SectorID, Windows> {
    let mut all = BTreeMap::new();
    for (number, marks) in marks.chunks(8).enumerate() {
        let mut windows = vec![];
        for (side, mark) in layout::SIDES.into_iter().zip(marks.chunks(2)) {
            let mark = u16::from_le_bytes([mark[0], mark[1]]);
            windows.extend(layout::windows_of_mark(side, mark));
        }
        all.insert(
            layout::sector_id(number, rows),
            Windows::from_list(&windows),
        );
    }
    all
}

fn step(step: &RouteStep) -> Step {
    Step {
        column: step.get_sector().get_column() as u8,
        row: step.get_sector().get_row() as u8,
        goal: step.get_goal() as u8,
        window: step.portal().as_ref().map(layout::window),
    }
}
