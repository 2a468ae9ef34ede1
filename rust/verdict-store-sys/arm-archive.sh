#!/bin/sh
# arm-archive.sh DIR NAME..: proves each static library NAME_c and writes DIR/libNAME.a for Arm. It ends with 127 where there is no rt.
exec /bin/sh "${0%/*}/../../tools/archives.sh" aarch64-unknown-linux-gnu "$@"
