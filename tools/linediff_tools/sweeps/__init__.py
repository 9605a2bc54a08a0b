"""Sweeps: many scenarios, drawn from a template or made by `gen`, each run by `bench` and told in a row."""
