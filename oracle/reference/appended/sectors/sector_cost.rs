
impl SectorCostFields {
	/// From base costs alone: scaled and graphed as `new` does it
	pub fn from_base(baseline: BTreeMap<SectorID, CostField>, dimensions: &Dimensions) -> Self {
		let mut fields = SectorCostFields {
			baseline,
			..Default::default()
		};
		fields.scale_all_costfields(dimensions);
		fields.with_graphs()
	}
	/// From base and scaled costs as a store has them
	pub fn from_parts(
		baseline: BTreeMap<SectorID, CostField>,
		scaled: BTreeMap<SectorID, CostField>,
	) -> Self {
		let fields = SectorCostFields {
			baseline,
			scaled,
			..Default::default()
		};
		fields.with_graphs()
	}
	/// Empty graphs, then filled
	fn with_graphs(mut self) -> Self {
		for sector in self.baseline.keys() {
			self.graphs.insert(*sector, StableGraph::default());
		}
		create_all_graphs(&mut self.graphs, &self.scaled);
		self
	}
	/// Get a reference to the base fields
	pub fn get_base_costs(&self) -> &BTreeMap<SectorID, CostField> {
		&self.baseline
	}
}
