
impl PortalWindow {
	/// First and last cell
	pub fn ends(&self) -> (FieldCell, FieldCell) {
		(self.start, self.end)
	}
	/// The middle cell, as `find_path` takes it
	pub fn midpoint(&self) -> FieldCell {
		self.get_midpoint()
	}
}

impl Windows {
	/// The windows in the order given, each on its own side
	pub fn from_list(list: &[PortalWindow]) -> Self {
		let mut windows = Windows::default();
		for window in list {
			windows.add_window(*window, window.get_boundary());
		}
		windows
	}
}

impl PortalNode {
	/// Sector and window
	pub fn parts(&self) -> (SectorID, PortalWindow) {
		(self.sector, self.window)
	}
}

impl Portals {
	/// Windows as a store has them, nodes and edges made of them as `new` does it.
	/// Facing windows are joined up to the smaller count, where `new` would panic
	pub fn from_windows(
		portals: BTreeMap<SectorID, Windows>,
		sector_cost_fields: &SectorCostFields,
	) -> Self {
		let mut this = Portals {
			portals,
			..Default::default()
		};
		this.generate_all_nodes();
		this.generate_all_internal_edges(sector_cost_fields.get_graphs());
		for (sector, windows) in this.portals.iter() {
			let faced = faced_windows(sector, windows, &this.portals);
			generate_sector_external_edges(
				sector,
				&faced,
				&this.nodes,
				&mut this.graph,
				&this.portals,
			);
		}
		this
	}
	/// The portals with their graph nodes, in the order of [PortalNode]
	pub fn get_nodes(&self) -> &BTreeMap<PortalNode, NodeIndex<u32>> {
		&self.nodes
	}
	/// Where the edges of a graph node lead, and their weights
	pub fn get_edges(&self, node: NodeIndex<u32>) -> Vec<(NodeIndex<u32>, i32)> {
		use petgraph::visit::EdgeRef;
		let edges = self.graph.edges(node);
		edges.map(|edge| (edge.target(), *edge.weight())).collect()
	}
	/// Tells the search the order of [PortalNode], by which it chooses among equal paths
	#[cfg(feature = "standin")]
	pub fn rank_nodes(&mut self) {
		let order: Vec<NodeIndex<u32>> = self.nodes.values().copied().collect();
		self.graph.rank_nodes(&order);
	}
}

/// Of each side, the windows that have a counterpart of the same number
fn faced_windows(
	sector: &SectorID,
	windows: &Windows,
	portals: &BTreeMap<SectorID, Windows>,
) -> Windows {
	let mut faced = Windows::default();
	for side in [
		CompassDir::North,
		CompassDir::East,
		CompassDir::South,
		CompassDir::West,
	] {
		let adjacent = portals.get(&sector.get_in_compass_direction(&side, 1));
		let facing = adjacent.map_or(0, |windows| {
			windows.get_windows_for_compass_dir(&side.inverse()).len()
		});
		for window in windows.get_windows_for_compass_dir(&side).iter().take(facing) {
			faced.add_window(*window, &side);
		}
	}
	faced
}
