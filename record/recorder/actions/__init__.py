"""What each command of a recorded build met and left as a remote execution's action has it, and which files of that
nobody declares (docs/ACTIONS.md)."""
