#!/usr/bin/env bash
# for: steps of histories in Linux's sch_pie.c and DPDK's rte_pie.h (bench/steps), and a Linux whose time is simulated (bench/uml/build.sh)
. "$(dirname "$0")/../../tests/shared/packages.sh"
packages linux-source-6.1 xz-utils libdpdk-dev pkg-config gcc libc6-dev make flex bison bc python3 gawk
