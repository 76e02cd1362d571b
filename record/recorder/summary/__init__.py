"""What is kept of a recorded build beside many others: two lines of JSON and more (docs/FLAKES.md)."""
