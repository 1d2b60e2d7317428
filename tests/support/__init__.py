"""What tests, examples and benchmarks share. What the tools need too is in tools/whatif_tools."""
