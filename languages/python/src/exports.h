/* exports.h: makes visible what the headers declare, where the library is compiled of its C files with the extension: ctypes calls
 * its functions for columns. In a static library they are visible already. */
#pragma GCC visibility push(default)
#include "calendar.h"
#include "calendar_layers.h"
#pragma GCC visibility pop
