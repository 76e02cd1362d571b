"""Which commands of a recorded build a content cache or an early cutoff would have saved (docs/REUSE.md)."""
