int list(void) { return 5; }
