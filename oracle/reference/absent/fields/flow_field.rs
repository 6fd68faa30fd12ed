//! Absent from docs/src: flow fields, which document 01 leaves out.
