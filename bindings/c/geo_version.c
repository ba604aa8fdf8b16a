/* The version of the library. SPDX-License-Identifier: Apache-2.0 */
#include "geo_c.h"

const char *geo_version(void)
{
  return GEO_VERSION;
}
