/* What a shared object is, as lapin.h says: library.py and unproved_library.py compile this beside the library with its three words. */
#include "lapin.h"

const char *lapin_version(void) { return LAPIN_RELEASE " " LAPIN_PROOF " " LAPIN_TEXT; }
