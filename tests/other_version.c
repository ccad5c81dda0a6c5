/* A library with another VERSION than that of the header. Any other call of it ends the program, so each binding has to
 * compare the versions before. */
#include <stdint.h>
#include <stdlib.h>

uint32_t confscript_version(void) { return VERSION; }

#define CALL(name) \
    void confscript_##name(void) { abort(); }
CALL(apply)
CALL(check)
CALL(committed)
CALL(may_be_down)
CALL(next)
CALL(plan)
CALL(restore)
CALL(stages)
CALL(status_text)
CALL(step)
CALL(vote)
