//! Item 6 and the plan call: hall measures from four f32 values.

use crate::refusal::refuse_if;

/// A refusal's other values are 0.
#[derive(Debug, Clone, Copy, PartialEq, Eq, Default)]
pub struct PlanAnswer {
    pub number: u8,
    pub columns: u8,
    pub rows: u8,
    pub scale: u8,
}

/// Plan: refusals 1 to 9, or columns, rows and scale.
pub fn plan(size_x: f32, size_y: f32, unit: f32, radius: f32) -> PlanAnswer {
    measures(size_x, size_y, unit, radius).unwrap_or_else(|number| PlanAnswer {
        number,
        ..PlanAnswer::default()
    })
}

fn measures(size_x: f32, size_y: f32, unit: f32, radius: f32) -> Result<PlanAnswer, u8> {
    let finite = [size_x, size_y, unit, radius].iter().all(|v| v.is_finite());
    refuse_if(!finite, 1)?;
    refuse_if(size_x <= 0.0 || size_y <= 0.0, 2)?;
    refuse_if(radius <= 0.0, 3)?;
    refuse_if(unit <= 0.0, 4)?;
    // Each quotient is one rounded f32 division by the rounded sector length.
    let sector_length = unit * 10.0;
    let columns = size_x / sector_length;
    let rows = size_y / sector_length;
    refuse_if(columns < 1.0 || rows < 1.0, 5)?;
    refuse_if(radius >= sector_length, 6)?;
    let scale = (radius / unit).ceil();
    refuse_if(scale >= 10.0, 7)?;
    refuse_if(scale == 0.0, 8)?;
    let (columns, rows) = (columns.floor(), rows.floor());
    refuse_if(columns > 10.0 || rows > 10.0, 9)?;
    Ok(PlanAnswer {
        number: 0,
        columns: columns as u8,
        rows: rows as u8,
        scale: scale as u8,
    })
}
