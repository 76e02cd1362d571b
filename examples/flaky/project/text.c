int text(void) { return 7; }
