/* Switches the segmentation of TCP off at a device, and sets the number of its transmit descriptors, as ethtool does: device_options DEVICE DESCRIPTORS. */
#include <linux/ethtool.h>
#include <linux/if.h>
#include <linux/sockios.h>
#include <stdio.h>
#include <stdlib.h>
#include <string.h>
#include <sys/ioctl.h>
#include <sys/socket.h>
#include <unistd.h>

static int request(int socket, const char *device, void *data) {
    struct ifreq request = {0};
    snprintf(request.ifr_name, sizeof request.ifr_name, "%s", device);
    request.ifr_data = data;
    return ioctl(socket, SIOCETHTOOL, &request);
}

int main(int count, char **words) {
    struct ethtool_value segmentation = {.cmd = ETHTOOL_STSO};
    struct ethtool_ringparam ring = {.cmd = ETHTOOL_GRINGPARAM};
    int channel = socket(AF_INET, SOCK_DGRAM, 0);
    if (count != 3 || channel < 0 || request(channel, words[1], &segmentation) != 0 || request(channel, words[1], &ring) != 0)
        return 1;
    ring.cmd = ETHTOOL_SRINGPARAM;
    ring.tx_pending = (unsigned)atoi(words[2]);
    return request(channel, words[1], &ring) != 0;
}
