"""The crates' source files taken apart, for the tools that compare or look up names."""
