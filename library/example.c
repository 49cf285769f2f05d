#include "potlimay.h"
#include <stdio.h>

int main(void) {
    static uint8_t file[8192], out[POTLIMAY_BUFFER];
    size_t length = fread(file, 1, sizeof file, stdin);
    potlimay_answer answer = potlimay_report(file, length, out, sizeof out);
    fwrite(out, 1, answer.length, stdout);
    return answer.status != POTLIMAY_WRITTEN;
}
