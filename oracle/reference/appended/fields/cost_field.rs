impl CostField {
	/// A field with these hundred costs
	pub fn from_costs(costs: &[u8]) -> Self {
		let mut field = [0; FIELD_RESOLUTION * FIELD_RESOLUTION];
		field.copy_from_slice(costs);
		CostField { field }
	}
}
