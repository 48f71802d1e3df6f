/* By which rules requests are kept where the kernel differs from the manual pages: WULGACH_PROFILE.
 */
#ifndef PROFILE_H
#define PROFILE_H

#include <stdbool.h>

/* Whether by Linux's. Else by the manual pages'. */
bool is_profile_linux(void);

#endif
