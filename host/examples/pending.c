/* Whether the image on standard input holds an interrupted update: pending < IMAGE */
#include "cda_storage.h"

#include <stdio.h>

int main(void) {
    static uint8_t image[CDA_STORAGE_IMAGE_ROOM];
    size_t length = fread(image, 1, sizeof image, stdin);
    uint32_t pending = 0;
    uint32_t number = cda_storage_has_pending_work(image, length, &pending);
    if (number != CDA_STORAGE_DONE) {
        printf("refusal %u\n", (unsigned)number);
        return 1;
    }
    puts(pending ? "pending" : "at rest");
    return 0;
}
