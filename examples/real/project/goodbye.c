#include "words.h"

const char *goodbye(void) { return "goodbye"; }
