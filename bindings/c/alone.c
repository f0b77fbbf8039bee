/* The header by itself, and once more. */
#include "ducatfeather.h"
#include "ducatfeather.h"
