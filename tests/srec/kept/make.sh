#!/bin/sh
# Writes the kept files again, in this folder. Needs objcopy (binutils) and srec_cat (srecord). README.md has the versions that
# made those that are kept; others may write other headers.
set -e
cd "$(dirname "$0")"

# 40 bytes: 3, 10, 17 and so on
python3 -c 'import sys; sys.stdout.buffer.write(bytes((7 * i + 3) % 256 for i in range(40)))' > image.bin

objcopy -I binary -O srec image.bin objcopy-plain.s19
objcopy -I binary -O srec --srec-forceS3 image.bin objcopy-force-s3.s37
objcopy -I binary -O srec --srec-len=32 image.bin objcopy-len-32.s19
objcopy -I binary -O srec --change-addresses 0x12340 --set-start 0x10 image.bin objcopy-start.s28
objcopy -I binary -O srec --change-addresses 0xFF000000 image.bin objcopy-high.s37
objcopy -I binary -O symbolsrec image.bin objcopy-symbols.s19

start='-execution-start-address=0'
srec_cat image.bin -binary -o srec_cat-plain.s19
srec_cat image.bin -binary -o srec_cat-start.s19 -execution-start-address=0x10
srec_cat image.bin -binary -o srec_cat-width-3.s28 -address-length=3 -execution-start-address=0x10
srec_cat image.bin -binary -o srec_cat-width-4.s37 -address-length=4 -execution-start-address=0x10
srec_cat image.bin -binary -o srec_cat-header.s19 -header=Boot $start
srec_cat image.bin -binary -o srec_cat-no-header.s19 -disable=header $start
srec_cat image.bin -binary -o srec_cat-no-count.s19 -disable=data-count $start
srec_cat image.bin -binary -o srec_cat-no-terminator.s19 -disable=exec-start-address
srec_cat image.bin -binary -o srec_cat-data-only.s19 -data-only
srec_cat image.bin -binary -o srec_cat-crlf.s19 -line-termination=crlf $start
srec_cat image.bin -binary -o srec_cat-cr.s19 -line-termination=cr $start
srec_cat image.bin -binary -o srec_cat-long.s19 -line-length=255 $start
srec_cat image.bin -binary -o srec_cat-short.s19 -output-block-size=4 $start
srec_cat image.bin -binary -offset 0xFFFFFFD0 -o srec_cat-top.s37 -execution-start-address=0xFFFFFFD0
srec_cat image.bin -binary -offset 0x600 -o srec_cat-tape.ptp -MOS_Technologies
srec_cat -generate 0 0x100 -constant 7 -o srec_cat-tape-256.ptp -MOS_Technologies -output-block-size=1

# Not kept, for its size; srec.py has its SHA-256.
srec_cat -generate 0 0x10000 -constant 0 -o s6.s19 -output-block-size=1 -disable=header $start
sha256sum s6.s19
rm s6.s19
