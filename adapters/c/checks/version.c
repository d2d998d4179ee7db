/* What the library is, as it says. */
#include <stdio.h>

#include "../lapin.h"

int main(void) { return puts(lapin_version()) < 0; }
