"""Which commands of two recorded builds left other bytes from the same, and which only follow (docs/CAUSES.md)."""
