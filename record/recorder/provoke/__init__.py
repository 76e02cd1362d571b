"""A race of a recorded build made to happen, by the user's Ninja, in a copy that costs nothing."""
