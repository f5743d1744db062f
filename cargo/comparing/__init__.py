"""What `cargo/compare` runs two builds of the programs on, and how it compares them."""
