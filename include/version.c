#include "dwv.h"

const char *dwv_version(void) {
    return DWV_VERSION;
}
