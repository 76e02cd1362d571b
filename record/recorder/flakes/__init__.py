"""Which orders of commands separate the failing builds from the passing ones, of many summaries (docs/FLAKES.md)."""
