"""`rebug explore`: one page in which a recorded build is looked at, asked and undone."""
