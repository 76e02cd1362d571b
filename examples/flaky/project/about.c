#include "version.h"

int about(void) { return VERSION; }
