"""A build run in opposite orders, in copies that are thrown away, and compared by bytes."""
