#include "adapter.h"

const char *const kind_names[KINDS] = { "txtake", "txput", "rxdata", "rxdone", "eeprom", "phy" };
const char *const outcome_names[OUTCOMES] = { "nothing", "took", "put",    "wirefull", "part",
                                              "moved",   "done", "ticked", "fault" };
const char *const fate_names[FATES] = { "off", "illegal", "filtered", "missed", "stored" };
