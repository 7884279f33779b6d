#include <stdio.h>
#include <textmodel.h>

int main(void) {
  tm_session session = {0};  // holds nothing yet
  const tm_opening opening = {.utf8 = "f(x)", .length = 4};
  tm_partner partner;
  if (tm_make(&session) != TM_OK || tm_open(&session, 0, &opening) != TM_OK) return 1;  // document 0 of 64
  tm_edit_utf8(&session, 0, 2, 3, "[y]", 3);  // offsets count UTF-16 units from 0
  if (tm_match(&session, 0, 1, 2, TM_UTF8, &partner) == TM_OK)  // lines and columns count from 1
    printf("closed at %d:%d\n", (int)partner.line, (int)partner.column);  // closed at 1:6
  tm_undo(&session, 0);
  tm_free(&session);
  return 0;
}
