/* Calls a harness once for each input of a file. An input is a line of hexadecimal digits. The last line says how many
 * there were.
 */
#include "input.h"

static int digit(int character)
{
    static const char digits[] = "0123456789abcdef";
    const char *at = character == 0 ? NULL : strchr(digits, character);
    return at == NULL ? -1 : (int)(at - digits);
}

/* Reads a line. Returns how many octets it has, or -1 at the end of the file or at another character than a digit. */
static long read_line(FILE *file, uint8_t *octets, size_t room)
{
    size_t count = 0;
    int high = getc(file), low;
    while (high != '\n' && high != EOF) {
        low = getc(file);
        if (digit(high) < 0 || digit(low) < 0 || count == room) {
            fprintf(stderr, "plain: a line isn't hexadecimal, or is too long\n");
            exit(2);
        }
        octets[count++] = (uint8_t)(digit(high) * 16 + digit(low));
        high = getc(file);
    }
    return high == EOF ? -1 : (long)count;
}

int main(int words, char **word)
{
    static uint8_t octets[1 << 16];
    FILE *file = words == 2 ? fopen(word[1], "r") : NULL;
    unsigned long inputs = 0;
    long count;
    if (file == NULL) {
        fprintf(stderr, "usage: plain FILE\n");
        return 2;
    }
    while ((count = read_line(file, octets, sizeof octets)) >= 0) {
        uint8_t *input = (uint8_t *)malloc((size_t)count + 1); /* so that the sanitizer sees a read after it */
        if (input == NULL) {
            return 2;
        }
        memcpy(input, octets, (size_t)count);
        LLVMFuzzerTestOneInput(input, (size_t)count);
        free(input);
        inputs++;
    }
    fclose(file);
    printf("%lu inputs\n", inputs);
    return 0;
}
