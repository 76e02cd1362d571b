"""Commands of a recorded build run once more, each in a room that has its recorded inputs and nothing else of the
project (docs/RERUN.md)."""
