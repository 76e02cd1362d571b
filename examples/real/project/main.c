#include "words.h"

const char *about(void);

int main(void) { return *hello() + *goodbye() + *about() == 0; }
