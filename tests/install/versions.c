/* Prints the header's version, and fails where its parts, its number or the library's number are
 * not the same. */
#include <stdio.h>
#include <string.h>

#include <lellmusu.h>

int main(void)
{
    char text[32];
    snprintf(text, sizeof text, "%d.%d.%d", LELLMUSU_VERSION_MAJOR, LELLMUSU_VERSION_MINOR,
             LELLMUSU_VERSION_PATCH);
    puts(LELLMUSU_VERSION);
    return strcmp(text, LELLMUSU_VERSION) == 0 && lellmusu_version() == LELLMUSU_VERSION_NUMBER
               ? 0
               : 1;
}
