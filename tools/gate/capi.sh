#!/bin/sh
# capi.sh PROGRAM: builds the C library over what the gate has proved, and tries it.
cd "$(dirname "$0")/../.." && make -C capi && exec capi/tests/check.sh "$1"
