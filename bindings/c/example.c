/* Says of each argument whether it may name a branch. Where it may not, says
   why and where, and suggests another name. */
#include "gix_validate.h"

#include <stdio.h>
#include <stdlib.h>

int main(int count, char **arguments) {
  int invalid = 0;
  for (int i = 1; i < count; i++) {
    const char *name = arguments[i];
    gix_validate_result result;
    if (gix_validate_check(GIX_VALIDATE_KIND_BRANCH, name, strlen(name), 0,
                           &result) == GIX_VALIDATE_OK) {
      printf("%s: ok\n", name);
      continue;
    }
    printf("%s: %s (%s at byte %zu)\n", name,
           gix_validate_fault_text(result.fault),
           gix_validate_fault_name(result.fault), result.offset);
    size_t size = strlen(name) + 1;
    char *suggested = malloc(size);
    if (suggested != NULL &&
        gix_validate_suggest_str(name, suggested, size) > 0) {
      printf("    try %s\n", suggested);
    }
    free(suggested);
    invalid++;
  }
  return invalid == 0 ? 0 : 1;
}
