/* module.c: what PostgreSQL looks for when it loads the extension. */
#include "extension.h"

PG_MODULE_MAGIC;
