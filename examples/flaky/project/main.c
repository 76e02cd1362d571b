#include "table.h"
#include "version.h"

int about(void);
int list(void);
int text(void);

int main(void) { return SIZE + VERSION - about() - list() - text(); }
