/* Writes the contents of a flight recorder's file as an excerpt (docs/FORMATS.md), for pie audit and pie explain, also if the process
 * that kept the file was killed. While that process runs, let it write the text itself.
 * usage: flight_text FILE      the text goes to standard output */
#include "flight_file.h"

int main(int count, char **words) {
    if (count != 2) {
        fprintf(stderr, "usage: flight_text FILE\n");
        return 1;
    }
    int answer = write_flight_of(words[1], stdout);
    if (fflush(stdout) != 0 && answer == PIE_FLIGHT_DONE)
        answer = PIE_FLIGHT_STOPPED;
    if (answer != PIE_FLIGHT_DONE)
        fprintf(stderr, "flight_text: %s: %s\n", words[1], flight_text(answer));
    return answer == PIE_FLIGHT_DONE ? 0 : 1;
}
