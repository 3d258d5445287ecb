/* Sends UDP packets of 100 bytes to successive addresses from 10.9.0.0 on, and waits SECONDS. In qemu's simulated time the kernel's packet generator does not end.
 *
 * usage: many_packets COUNT [SECONDS] */
#include <arpa/inet.h>
#include <stdio.h>
#include <stdlib.h>
#include <sys/socket.h>
#include <unistd.h>

int main(int count, char **words) {
    static char bytes[58];
    int packets = count > 1 ? atoi(words[1]) : 0, room = 1 << 28, channel = socket(AF_INET, SOCK_DGRAM, 0);
    setsockopt(channel, SOL_SOCKET, SO_SNDBUFFORCE, &room, sizeof room);
    for (int i = 0; i < packets; i++) {
        struct sockaddr_in to = {.sin_family = AF_INET, .sin_port = htons(9), .sin_addr.s_addr = htonl(0x0a090000 + (unsigned)i)};
        if (sendto(channel, bytes, sizeof bytes, 0, (struct sockaddr *)&to, sizeof to) < 0) {
            perror("many_packets");
            return 1;
        }
    }
    sleep(count > 2 ? (unsigned)atoi(words[2]) : 0);
    return 0;
}
