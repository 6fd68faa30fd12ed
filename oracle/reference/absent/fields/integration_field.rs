//! Absent from docs/src: integration fields, which document 01 leaves out.
