"""Sweeps: many sets of parameters through one model, on any engine."""
