"""The rows that `.ci/rows` starts from: words and an input each, as the pages, the examples and
the standards' tables have them."""

from . import meaning, packets, profiles, stats
from .packets import Call, Part, Read, Write
from .profiles import example

# Captures under the sample profile.
CAPTURES = """
S b0 A 21 A 00 A 18 A f8 A P
S b0 A 21 A 00 A 18 A P
S b0 A 88 A S b1 A 00 A d3 A f6 N P
S b0 A 88 A S b1 A 00 A d3 A f7 N P
S b0 A 88 A S b1 A 00 A d3 N P
S b0 A 03 A 47 N P
S b0 A 03 A 47 A P
S b0 A 03 A 46 A P
S b0 A 03 A S b2 A 03 A P
S b0 A 03 A S b0 A 03 A P
S b0 A 03 A S b4 A 03 A 12 A P
S b4 A 03 A 12 A S b0 A 21 A 00 A 18 A S b2 A 99 A 02 A 41 A 42 A P
S 40 N P
S 40 A P
S b0 A 99 A S b1 A 00 N P
S b0 A 99 A S b1 A 00 A 51 N P
S b0 A 99 A S b1 A 03 A 41 A 42 A 43 N P
S b0 A 99 A 02 A 41 A 42 A P
S b0 A 99 A 00 A P
S b0 A 1b A 01 A 7a A P
S b0 A 1b A 01 A 7a A S b1 A 01 A 10 N P
S b0 A 1b A 01 A 7a A S b1 A 01 A 10 A 7a N P
S b0 A 30 A 02 A d0 A 01 A S b1 A 05 A 03 A 00 A 02 A 00 A 01 N P
S b0 A 06 A 01 A 01 A S b1 N P
S b0 A 21 A S b1 N P
S b0 A c8 N P
S b0 A c8 A P
S b0 A 00 A 05 N P
S b0 A 03 A S b2 N P
S b0 A 03 A S b2 A 47 N P
S b0 A 03 A S 40 N P
S b2 A 03 A 47 N P
S b4 A 03 A P
S b4 A 03 A 12 A P
S b2 A 19 A S b3 A b0 N P
S b2 A 19 A S b3 A b0 A P
S b0 A 88 A S b1 A 00 N P
S b0 A 88 A 00 N P
S b0 A 88 A S 40 N P
S b1 A 00 N P
S b0 A P
S b0 N A P
S b0 N S P
S S b0 P
S 19 A b0 N P
S 19 A b0 A f3 N P
S 19 A b0 A f2 N P
S 19 A b0 A f3 A P
S 19 N P
S 18 N P
S 1b A 00 N P
S b0 A 79 A S b1 A 40 A 88 N P
S b0 A 7e A S b1 A 26 N P
S b0 A 7a A S b1 A 00 N P
S b0 A 22 A ff A ff A P
S b0 A d0 A 32 A 00 A P
S b0 A d0 A S b1 A 00 A 00 N P
S b0 A 03 A 47 A P S b0 A 21 A 00 A 18 A f8 A P
S b0 A 20 A 14 A P S b0 A 21 A 00 A 18 A P
S b0 A 20 A 97 A P S b0 A 21 A 00 A 18 A P
S b0 A 20 A 14 A P S b0 A 00 A ff A P S b0 A 21 A 00 A 18 A P
S b0 A 00 A ff A P S b0 A 20 A S b1 A 1e N P S b0 A 8b A S b1 A 03 A 00 N P
S b0 A 00 A 02 A P S b0 A 20 A 12 A P S b0 A 21 A 00 A 18 A P
S b0 A 20 A 12 A S b2 A 01 A 80 N P S b0 A 21 A 00 A 18 A P
S b0 X
P N A 00
b0c
# none
"""

# A capture whose packets tell of each other, with a word that is no token.
JSON_CAPTURE = """S b0 A 21 A 00 A 18 A P # by VOUT_MODE\r
\tS b0 A 20 A 14 A P S b0 A 21 A 01 A 18 A P
S b0 A 03 A S b2 A 03 A P
S b0 A 00 A 01 A zz P
S b0 A 03 A 47 A P S b2 A 03 A S 40 N P
S b4 A 00 A ff A b2 A P S b4 A 21 A 00 A 18"""

# Captures with times, and ones whose VOUT_MODE is told and untold; / ends a line.
TIMED = """
# 0.000025 s/S b0 A 03 A P/# 2026-01-25T15:30:08.5Z\r/S b0 A 03 A S b2 A 03 A P S b2 A 03 A P/
# 1 s/# 12/# 2 s /#  2 s/ # 2 s/# 2.0.0 s/# . s/S b0 A/# 3 s/03 A P # 4 s/S b2 A 03 A P/
# 00000000000000000000000000000000000000.1 s/# 00000000000000000000000000000000000000.02 s/S b2 A 03 A P
# 2026-01-25T15.........................../# 2026-01-25T15............................/S b2 A 03 A P
# 1 s/S b0 A 03 A 47 A/# 2 s/x/# 3 s/A x/# 4 s/P x/# 5 s/x/S b0 A 03 A P/# 6 s/S b0
S b2 A 21 A 00 A 18 A P/S b2 A 20 A 14 A P/S b2 A 21 A 00 A 18 A P/S b2 A 12 A P/S b2 A 21 A 00 A 18 A P
S b0 A 00 A ff A P/S b0 A 20 A 14 A P/S b0 A 05 A 03 A 00 A 20 A 13 A P/S b0 A 8b A S b1 A 00 A 18 N P
S b0 A 00 A 01 A P/S b0 A 20 A 14 A P/S b2 A 03 A S b0 A 16 A P/S b0 A 22 A 00 A 18 A P
"""

# Captures whose registers change, and whose numbers have a mean; / ends a line.
REGISTERS = """
# 1 s/S b0 A 7a A S b1 A 10 N P/# 2 s/S b0 A 7a A S b1 A 00 N P/S b0 A 7a A S b1 A 30 N P/# 4 s/S b0 A 7a A S b1 A 20 N P
# 1 s/S b2 A 79 A S b3 A ff A ff N P/# 2.5 s/S b2 A 79 A S b3 A 40 A 08 N P/# 3 s/S b2 A 79 A S b3 A 00 A 00 N P
S b0 A 00 A ff A P/# 1 s/S b0 A 7e A S b1 A ff N P/S b0 A 00 A 05 A P/# 2 s/S b0 A 7e A S b1 A 26 N P/# 3 s/S b0 A 7e A S b1 A 02 N P
S b0 A 8d A S b1 A 01 A f8 N P/S b0 A 8d A S b1 A 01 A f8 N P/S b0 A 8d A S b1 A 01 A 00 N P/S b0 A 8d A S b1 A ff A 7f N P
S b0 A d0 A 32 A 00 A P/S b0 A d0 A S b1 A 00 A 80 N P/S b0 A d0 A S b1 A ff A 7f N P/S b0 A 00 A 01 A P/S b0 A 35 A 01 A 80 A S 40 N P
S b2 A 21 A 00 A 18 A P/S b2 A 20 A 1e A P/S b2 A 21 A 00 A 18 A P/S b2 A 22 A ff A ff A P/S b2 A 20 A 97 A P/S b2 A 21 A 00 A 18 A P
"""

# Captures with lines that are dropped, which may have set PAGE and VOUT_MODE; / ends a line.
DROPPED = """
S b2 A 20 A 17 A P/S b2 A 8b A S b3 A 00 A 18 N P/S b2 A 20 A 14 AP/S b2 A 8b A S b3 A 00 A 18 N P/S b2 A 20 A 14 A P/S b2 A 8b A S b3 A 00 A 18 N P
S b0 A 00 A 01 A P/S b0 A 20 A 14 A P/S b0 A 8b A S b1 A 00 A 18 N P/x/S b0 A 8b A S b1 A 00 A 18 N P/S b0 A 00 A 01 A P/S b0 A 8b A S b1 A 00 A 18 N P
S b0 A 00 A ff A P/S b0 A 20 A 14 A P/x/S b0 A 20 A 17 A P/S b0 A 21 A 00 A 18 A P/S b0 A 00 A 00 A P/S b0 A 21 A 00 A 18 A P/S b0 A 20 A 17 A P x/S b0 A 21 A 00 A 18 A P
"""

# Transaction lines under the sample profile.
TRANSACTIONS = """
write 58 21 00 18 pec
write 58 21 00 18 # a comment
write 58 03 + 59 03
write 58 03 + 5a 03 pec
write 58 9A ab
write 58 99 02 41 42 pec + 59 99
write 58 2
write 58 88 00 00
write 58 21 00
write 58 c8
write 20 03
write 58 03 + 58 03
write 58 03 + 58 c8
write 59 21 00 18 pec
write 59 21 00 pec
write 5a 03
write 58 03 pec pec
write
write # 58 03
read 58 88 : 00 d3 pec
read 58 99 :
read 58 99 : 41 42 43
read 58 88 00
read 58 88 : 00
read 58 03 :
read f8 88 : 00 d3
read 5a 88 : 00 d3
call 58 1b 7a : 10
call 58 1b 7a : 10 pec
call 58 30 d0 01 : 03 00 02 00 01
call 58 06 :
call 58 88 :
call 58 1b 7a
refused 58 03 47
refused 59 03 47
refused 58 c8
refused 58 c8 00
refused 20
refused 20 03
refused f8
refused 58 88 read
refused 58 88 00
refused 58 21 read
refused 58 03 read
refused 58 read
refused 58 c8 read
refused 20 88 read
refused 58 06 01 01 read
refused 59 03 + 20
refused 59 03 + 58 88 00
refused 59 03 + 58 88 read
refused 59 03 + 59
refused 5a 03 pec + 58 21 00 18 + 59 21 00
refused 58 +
refused 58 03 + 59 03 pec + 5a
alert b0 pec
alert b0
alert none
alert none pec
alert
scan 58
"""

# Requests under the sample profile, each group of them one run.
REQUESTS = """
write 58 00 ff; set 58 21 12; write 58 00 01; get 58 21; write 58 00 ff; get 58 21
write 58 00 05; read 58 7e; write 58 7e 40; read 58 7e
call 58 30 d0 01; set 58 d0 1; get 58 d0; set 58 21 128
get 20 88; get 58 c8; set 58 88 12; get 58 99; get 5a 88
write 58 00 01; write 58 20 14; write 58 00 ff; set 58 21 1
write 58 20 97; set 58 21 1
write 58 20 35; get 58 21
write 58 20 40; get 58 21
write 58 20 60; get 58 21
call 58 06 01; read 58 7e; call 58 1a 21; call 58 1b 7a
call 58 30 21 00; call 58 30 d0; read 58 7e pec
set 58 21 x
set 58 21 pec
set 58 21 1/0 pec
set 58 21 1 1
set 58 21 -1/2; set 58 22 -1/2 pec; get 58 22
set 58 21 3.3; get 58 21; read 58 88 pec
write 58 00 02; read 58 7e; set 58 21 128
write 58 99 41 42 + 59 21 00 18; read 58 99; read 59 21; get 59 21
write 59 03 + 58 00 09 + 5a 03 pec; read 58 7e
write 58 79 ff ff; write 58 03; read 58 79; read 58 99
set 5a 35 -12.5 pec; get 5a 35 pec; get 5a 35; get 59 35 pec
write 58 00 ff pec; write 58 46 00 d3; write 58 00 00; get 58 46; read 58 00
alert b0
refused 58 03
"""

# Quantities and codes under each FORMAT.
QUANTITIES = """
12 1 1023.5 33521664 33521665 -1024.75 -1025 -33554432 -33554433 1/131072 3/131072 1/16
3/16 127.875 127.9 -128 -128.1 -1/3 0.1 0.50 -6/4 -0 00012 1. .5 +1 1e3 1/0 1/1024 3/1024
127.998046875 128 -1 5 1/60 4611686018427387904 4611686018427387903 -4611686018427387904
-4611686018427387903 -9223372036854775808/3 9223372036854775807/3 -9223372036854775807/2
9223372036854775808/4 -9223372036854775808/4 9223372036854775807/7 4/9223372036854775808
9223372036854775806/2 1/4611686018427387903 1/4611686018427387904 2/9223372036854775806
0.000000000000000000000001 0.0000000000000000000000010 0.0000000000000000000000001
0.000000059604644775390625 0.0000000298023223876953125 1/33554432 2047/2 65535 65536
-32768 -32768.5 65504 65504.1 -65504 -65505 -1/33554432 3/33554432 -3/33554432 2049 4097/2
0.25 0.2525 0.2575 0.5 1.52 1.521 3.04 1.6 1.596875 1.590625 1.55 0.2 0.195 1.465 2.74 2.745
""".split()
CODES = """
0000 0001 ba00 d300 8000 7bff 7c00 03ff 0400 0a00 0dff e801 ffff 7FFF 0032 12g4 123 12345
0002 00b2 00b3 00d8 00d9 00ff 0100 0101 3c00 8001 fbff fc00 7e01 fdff
""".split()
FORMATS = """
linear11 linear11:-3 linear11:0 linear11:15 linear11:-16 ulinear16:-9 ulinear16:15 slinear16:-9
slinear16:-16 vout:17 vout:0F direct:3,2,1 direct:-1,0,-1 direct:6720,0,-1 direct:-32768,32767,9
direct:7,-5,-9 half vid:vr11 vid:vr12 vid:vr13 vid:imvp9 vid:amd625mv vid:nvidia195mv udirect:3,2,1
udirect:-1,0,0 udirect:-32768,32767,9
""".split()
BAD_FORMATS = """
linear11:16 linear11:x linear11:128 linear11: ulinear16:-17 ulinear16 slinear16:+1 vout:97 vout:20
vout:60 vout:40 vout:a0 vout:1 direct:0,0,10 direct:1,0,10 direct:1,0 direct:32768,0,0
direct:1,0,-129 float LINEAR11 HALF half: half:0 vid vid: vid:vr14 vid:VR12 VID:vr12 vid:vr12, udirect
udirect:0,0,10 udirect:1,0,10 udirect:1,0 udirect:32768,0,0 uudirect:1,0,0
""".split()

# Captures, lines and requests after profiles that have commands of every form.
ODD_CAPTURES = """
S 20 A e0 A 01 A 02 A 03 A 04 A e3 A P
S 20 A e1 A S 21 A 01 A 02 A 03 A 04 A 05 A 06 A 07 A 08 N P
S 20 A e1 A S 21 A 01 A 02 A 03 A 04 A 05 A 06 A 07 N P
S 20 A 03 A S 19 A b0 N P
S 20 A 21 A 05 A 00 A P S 20 A 00 A 01 A P S 20 A 20 A 17 A P S 20 A 21 A 00 A 18 A P
S 20 A e3 A 34 A 12 A P S 20 A e3 A 34 A 12 A S 21 A 56 A 78 N P
S 20 A e4 A 01 A 41 A S 21 A 01 A 42 N P
S 22 A 35 A 60 A e8 A 32 A P
S ee A 00 A S ef A 07 N P S ee A 21 A 00 A 18 A P
"""
ODD_LINES = """
write 10 e0 01 02 03 04 pec
write 10 e0 01
write 10 e2 + 77 21 00 18
read 10 e1 : 01 02 03 04 05 06 07 08 pec
call 10 e3 01 02 : 03 04
call 10 e4 41 : 42 43
refused 11 35 60 e8
refused 10 e4 01 41 read
write 77 00 00
"""
ODD_REQUESTS = """
write 10 e0 01 02 03 04; read 10 e0; read 10 e1 pec
set 11 35 12 pec; get 11 35 pec; set 11 35 128 pec
set 10 e2 1; get 10 e2; read 10 7e; get 10 e3
set 10 21 -5/7; get 10 21; set 10 22 3; call 10 30 21 00; call 10 30 88 00; call 10 30 22 00
write 10 00 ff; call 10 e5 01 02; read 10 7e; call 10 30 22 00
call 11 30 8b 00 pec; read 11 8b pec; get 11 8b pec
call 10 e4 41; call 10 e3 01 02; read 10 7e; write 10 00 ff; call 10 e4 41; read 10 e4; read 10 7e
write 10 00 01; write 10 20 17; get 10 21; write 10 00 02; get 10 21; read 10 20
write 77 21 00 18; read 77 00; call 77 30 00 00; read 77 7e; write 77 7e ff
write 10 00 03 + 77 03; read 10 7e; read 10 00
"""


# The same after profiles whose pages begin unlike each other, and that ignore addresses.
UNLIKE_CAPTURES = """
S 40 A 8b A S 41 A 00 A 18 N P S 40 A 00 A 01 A P S 40 A 8b A S 41 A 00 A 18 N P
S 40 A 00 A 02 A P S 40 A 21 A 00 A 18 A P S 40 A 20 A 13 A P S 40 A 21 A 00 A 18 A P
S 40 A 00 A ff A P S 40 A 21 A 00 A 18 A P S 40 A 20 A 17 A P S 40 A 21 A 00 A 18 A P
S 40 A 20 A S 41 A 14 N P S 40 A 22 A ff A ff A P S 40 A 00 A 01 A P S 40 A 22 A ff A ff A P
S 42 A 8b A S 43 A 00 A 10 N P S 42 A 00 A 01 A P S 42 A 8b A S 43 A 00 A 10 N P
S 44 A 00 A 01 A 2a A P S 44 A 20 A 13 A fa A P S 44 A 21 A 00 A 10 A 9b A P
S 44 A 00 A 01 A 2a A P S 44 A 21 A 00 A 10 A 9b A P
S 46 A 21 A 04 A 00 A 93 A P
S 90 A 00 A S 91 A 19 A 80 N P S a0 N P S 40 A 03 A P S a0 A 00 A 10 A 4d A P S fe A 01 A P
S 19 A 40 N P S 91 A 19 N P S 40 A 8b A S 91 N P
S 40 A 03 A S 90 A 01 A P S 40 A 03 A S 90 N P
"""
UNLIKE_LINES = """
write 20 21 00 18 + 21 00 01
write 21 20 13
read 23 01 : 80 pec
refused 48
refused 50 00
alert a0
"""
UNLIKE_REQUESTS = """
get 20 21; write 20 00 01; get 20 21; write 20 00 02; get 20 21; read 20 21; read 20 20; set 20 21 1
set 20 21 3; write 20 00 01; set 20 21 3; get 20 21; write 20 00 ff; set 20 21 3; read 20 7e
read 20 7e; write 20 00 01; read 20 7e; write 20 03; read 20 7e; write 20 00 02; read 20 7e
read 20 88; write 20 00 02; read 20 88; read 20 e0; read 20 e1; write 20 00 01; read 20 e0
write 20 00 ff; write 20 20 17; set 20 21 3; write 20 00 02; get 20 21; write 20 00 01; get 20 21
write 20 00 01; write 20 e0 42; read 20 e0; write 20 00 02; read 20 e0; write 20 00 00; read 20 e0
write 20 00 ff; write 20 7e 81; write 20 00 01; read 20 7e; write 20 00 02; read 20 7e
get 21 8b; write 21 00 01; get 21 8b; read 21 20; read 21 00
set 22 21 1 pec; write 22 00 01 pec; write 22 20 13 pec; set 22 21 1 pec; read 22 20 pec
read 23 01 pec; read 23 20 pec; set 23 21 1 pec; get 23 21 pec
write 48 00; read 50 00; get 20 8b
"""
RAILS_REQUESTS = """
get 40 8b; get 40 21; write 40 00 01; get 40 8b; get 40 21; set 40 21 3.3; get 40 21; read 40 20
write 40 00 ff; set 40 21 1; write 40 20 14; set 40 21 1; write 40 00 00; get 40 21; read 40 8b
"""


# The same after a profile with VID tables, halves and DIRECT without a sign.
VOLTS_CAPTURES = """
S 40 A 8b A S 41 A 01 A 00 N P S 40 A 8b A S 41 A 00 A 00 N P S 40 A 8b A S 41 A 00 A 01 N P
S 40 A 00 A 01 A P S 40 A 8b A S 41 A 00 A 3c N P S 40 A 8b A S 41 A 00 A 7c N P
S 40 A 00 A 01 A P S 40 A 20 A 3f A P S 40 A 8b A S 41 A ff A 00 N P S 40 A 22 A 01 A 00 A P
S 40 A 00 A ff A P S 40 A 21 A 01 A 00 A P S 40 A 20 A 21 A P S 40 A 21 A 01 A 00 A P
S 40 A 00 A 02 A P S 40 A 21 A 01 A 00 A P S 40 A 25 A 01 A 00 A P
S 40 A 20 A c0 A P S 40 A 8b A S 41 A ff A ff N P S 40 A 22 A ff A ff A P S 40 A 25 A ff A ff A P S 40 A 40 A ff A ff A P
S 40 A 20 A a1 A P S 40 A 8b A S 41 A 05 A 00 N P S 40 A 25 A 05 A 00 A P S 40 A 26 A 05 A 00 A P
S 40 A 20 A e0 A P S 40 A 40 A 66 A 3c A P S 40 A 40 A ff A 7f A P S 40 A 22 A 00 A c0 A P
S 40 A 20 A 97 A P S 40 A 5e A cd A 01 A P S 40 A 48 A 00 A 02 A P S 40 A 25 A 00 A ff A P
S 40 A e0 A 00 A 80 A P S 40 A e0 A ff A fb A P S 40 A e0 A 01 A fe A P S 40 A e1 A d8 A 00 A P S 40 A e1 A d9 A 00 A P
S 40 A e2 A 00 A 80 A P S 40 A e3 A 00 A 80 A P S 40 A e4 A 00 A 80 A P S 40 A 89 A S 41 A 00 A 80 N P
S 42 A 8b A S 43 A 01 A 00 N P S 42 A 8b A S 43 A 00 A 00 N P S 42 A 40 A 01 A 00 A P S 42 A 22 A 01 A 00 A P
S 42 A 20 A 20 A P S 42 A 8b A S 43 A 01 A 00 N P S 42 A 8b A S 43 A 02 A 00 N P S 42 A 20 A 22 A P S 42 A 8b A S 43 A 02 A 00 N P
S 42 A 20 A c0 A P S 42 A 8b A S 43 A 02 A 00 N P S 42 A 43 A 02 A 00 A P S 42 A 20 A 85 A P S 42 A 43 A 02 A 00 A P
S 44 A 8b A S 45 A 00 A 00 N P S 44 A 21 A d9 A 00 A P S 44 A 20 A 3f A P S 44 A 8b A S 45 A d8 A 00 N P
S 46 A 8b A S 47 A 01 A 00 N P S 46 A 00 A ff A P S 46 A 21 A ff A 00 A P S 46 A 20 A 40 A P S 46 A 21 A ff A ff A P
S 48 A 8b A S 49 A 00 A 18 N P S 48 A 20 A 20 A P S 48 A 8b A S 49 A 01 A 00 N P S 48 A 20 A 60 A P S 48 A 8b A S 49 A 00 A 40 N P
S 48 A 20 A 10 A P S 48 A 21 A 01 A 00 A P S 48 A 20 A 60 A P S 48 A 21 A 01 A 00 A P S 48 A 20 A 40 A P S 48 A 21 A 01 A 00 A P
"""
VOLTS_REQUESTS = """
get 20 e0; set 20 e0 65504; get 20 e0; set 20 e0 65505; set 20 e0 1/33554432; read 20 e0; get 20 88
get 20 e1; set 20 e1 1.546875; get 20 e1; set 20 e1 0.19; write 20 00 01; get 20 e1; set 20 e1 0.2; read 20 e1
set 20 e2 127.998046875; read 20 e2; set 20 e2 128; set 20 e3 -1073741824; read 20 e3; get 20 e3
get 20 e4; set 20 e4 65536; set 20 e4 -1; set 20 e4 32768; read 20 e4; call 20 30 e4 01; call 20 30 21 00
get 20 21; write 20 00 01; get 20 21; write 20 20 40; set 20 21 32.767; get 20 21; set 20 21 32.768; set 20 22 -16; get 20 22
write 20 e0 01 fc; get 20 e0; write 20 e1 00 01; get 20 e1; write 20 20 40; write 20 21 ff ff; get 20 21; set 20 25 -1; get 20 25
get 21 21; write 21 20 20; set 21 21 1; write 22 20 e0; get 22 21; get 23 8b; write 23 20 40; set 23 21 1; get 23 21
"""

# The same after a profile with units, names of bits, texts and phases of its own.
NAMED_CAPTURES = """
S 40 A 8c A S 41 A 00 A d3 N P S 40 A 04 A 01 A P S 40 A 8c A S 41 A 00 A d3 N P S 40 A 04 A ff A P S 40 A 8c A S 41 A 00 A d3 N P
S 40 A 04 A S 41 A 02 N P S 40 A 00 A 01 A P S 40 A 8c A S 41 A 00 A d3 N P S 40 A 04 A 03 A P S 40 A 8c A S 41 A 00 A d3 N P
S 40 A 04 A 00 A P S 40 A 79 A S 41 A ff A ff N P S 40 A 04 A 01 A P S 40 A 79 A S 41 A 08 A 80 N P S 40 A 04 A 00 A P S 40 A 79 A S 41 A 0c A 00 N P
S 40 A 7a A S 41 A 81 N P S 40 A 80 A S 41 A 83 N P S 40 A 7e A S 41 A 06 N P S 40 A 7a A ff A P
S 40 A 1b A 7a A 81 A P S 40 A 1b A 01 A 79 A S 41 A 01 A 8c N P S 40 A 1b A d0 A ff A P S 40 A 1b A 01 A 88 A S 41 A 01 A 03 N P
S 40 A d0 A 01 A 81 A P S 40 A 04 A 01 A P S 40 A d0 A S 41 A 03 A 01 N P S 40 A 04 A 07 A P S 40 A d0 A S 41 A 00 A 01 N P
S 40 A d1 A 02 A 41 A 22 A P S 40 A d1 A 00 A P S 40 A d1 A S 41 A 02 A 20 A 7e N P S 40 A d1 A S 41 A 01 A 1f N P S 40 A d1 A S 41 A 02 A 41 A 7f N P S 40 A d1 A S 41 A 00 N P
S 40 A d2 A P S 40 A d2 A S 41 A 41 A 5c N P S 40 A d2 A S 41 A 41 A 00 N P S 40 A d3 A P S 40 A d3 A S 41 A 05 N P
S 40 A 9a A S 41 A 41 A 42 A 43 A 44 N P S 40 A 9b A 01 A 41 A P S 40 A 9c A 01 A 41 A P S 40 A 9c A 00 A P S 40 A 99 A 00 A P S 40 A ad A S 41 A 01 A 80 N P
S 40 A 01 A 80 A P S 40 A 02 A 16 A P S 40 A 19 A S 41 A 41 N P S 40 A 98 A 33 A P S 40 A 98 A S 41 A 33 N P S 40 A 10 A S 41 A 40 N P
S 40 A 05 A 00 A 21 A P S 40 A 86 A S 41 A 01 A 02 A 03 A 04 A 05 A 06 A 07 A 08 N P S 40 A 87 A S 41 A 06 A 34 A 12 A 05 A 01 A 02 A 03 N P
S 40 A 21 A 00 A 18 A P S 40 A 97 A S 41 A 00 A d3 N P S 40 A 88 A S 41 A 00 A 4a N P S 40 A 35 A 60 A e8 A P S 40 A 8b A S 41 A 00 A 18 N P
S 40 A 38 A 01 A 00 A P S 40 A 39 A S 41 A 00 A d3 N P S 40 A 89 A S 41 A 00 A d3 N P S 40 A 88 A S 41 A 00 A 7c N P
S 40 A 20 A 97 A P S 40 A 21 A 00 A 02 A P S 40 A 25 A 00 A 02 A P S 40 A 04 A 02 A S 42 A 04 A 01 A P S 42 A 8c A S 43 A 00 A d3 N P
S 40 A 04 A 01 A S 40 A 8c A S 41 N P S 40 A 21 A 00 N P S 40 A 8c A S 41 A 00 A d3 A 00 N P S 40 A 04 A 02 A 00 N P S 40 A 8c A S 41 A
S 42 A 04 A fe A P S 42 A 8c A S 43 A 00 A d3 N P S 42 A 04 A ff A P S 42 A 8c A S 43 A 01 A d3 N P S 42 A 7b A S 43 A ff N P S 42 A 00 A 01 A P
S 46 A 04 A 00 A 00 A P S 46 A 8c A S 47 A 01 A 41 N P S 46 A 04 A S 47 A 00 A 01 N P S 46 A 38 A 00 A d3 A P
S 48 A 04 A 01 A 01 A P S 48 A 04 A S 49 A 01 A ff N P S 48 A 04 A 02 A 41 A 42 A P S 48 A 8c A S 49 A 00 A d3 N P S 48 A 04 A 00 A P
S 44 A 88 A S 45 A 00 A d3 A b7 N P S 44 A 82 A S 45 A 81 A 8a N P
S 40 A 1a A 01 A 8b A S 41 A 01 A ac N P S 40 A 30 A 02 A 88 A 01 A S 41 A 05 A 01 A 00 A fe A ff A ff N P S 40 A 06 A 02 A ff A 99 A S 41 A 00 N P
S 40 A 1a A 00 A S 41 A 01 A ac N P S 40 A 06 A 02 A 01 A 99 A S 41 A 02 A 01 A 41 N P S 40 A 30 A 02 A 88 A 02 A S 41 A 04 A 01 A 00 A fe A ff N P
"""


def lines_of(text):
    return [line.encode() for line in text.split("\n") if line]


def rows():
    """All rows."""
    found = [(["show", "--sample"], b""), (["build", "--sample"], b"\n"), (["show"], b"")]
    for capture in lines_of(CAPTURES):
        found += [([task, "--sample"], capture) for task in ("show", "check", "json", "log", "stats")]
        found.append((["scan"], capture))
    found += rows_with_flags("json") + rows_with_flags("log") + stats_rows()
    found += [(["build", "--sample"], line + b"\n") for line in lines_of(TRANSACTIONS)]
    found.append((["build", "--sample"], TRANSACTIONS.encode()))
    found.append((["build", "--sample"], b"write 58 03\r\nwrite 58 03\r\r\n\r\nwrite # 5\r"))
    for requests in lines_of(REQUESTS):
        found.append((["run", "--sample"], requests.replace(b"; ", b"\n") + b"\n"))
    found += conversions() + field_rows() + long_rows() + rows_behind_profiles()
    return found


def rows_with_flags(task):
    """Captures under the flags of `json` and `log`."""
    flags = [[], ["--late"], ["--late", "--fixed-vout-mode"], ["--keep-going"], ["--digits", "0"],
             ["--digits", "12"], ["--digits", "2", "--late"], ["--device", "58"],
             ["--device", "59", "--device", "20"], ["--keep-going", "--late", "--device", "5a"]]
    found = [([task, "--sample"] + words, JSON_CAPTURE.encode()) for words in flags]
    for capture in lines_of(TIMED):
        text = capture.replace(b"/", b"\n")
        for words in ([], ["--keep-going"], ["--late"], ["--late", "--fixed-vout-mode"]):
            found.append(([task, "--sample"] + words, text))
    return found + dropped_rows([task, "--sample"])


def dropped_rows(words):
    """Captures with lines that are dropped."""
    flags = [["--keep-going"], ["--late", "--keep-going"], ["--late", "--fixed-vout-mode", "--keep-going"]]
    return [(words + more, capture.replace(b"/", b"\n")) for capture in lines_of(DROPPED) for more in flags]


def stats_rows():
    """Captures under the flags of `stats`."""
    flags = [["--json"], ["--json", "--late"], ["--late", "--fixed-vout-mode"], ["--keep-going"],
             ["--json", "--digits", "0"], ["--digits", "12"], ["--json", "--device", "58"],
             ["--device", "59", "--device", "20"], ["--fail-on", "x"], ["--fixed-vout-mode"],
             ["--digits", "13"], ["--device", "80"], ["--fail-on", "nacks,"]]
    flags += [["--fail-on", words] for words in (*stats.WORDS, "faults,none-read")]
    found = [(["stats", "--sample"] + words, JSON_CAPTURE.encode()) for words in flags]
    for capture in lines_of(TIMED) + lines_of(REGISTERS):
        text = capture.replace(b"/", b"\n")
        for words in ([], ["--json"], ["--json", "--late"], ["--json", "--keep-going"]):
            found.append((["stats", "--sample"] + words, text))
    return found + dropped_rows(["stats", "--sample", "--json"])


def conversions():
    found = [(["encode", form], " ".join(QUANTITIES).encode()) for form in BAD_FORMATS]
    for form in FORMATS:
        found.append((["encode", form], "\n".join(QUANTITIES).encode()))
        found.append((["decode", form], "\r\n".join(CODES).encode()))
    found += [(["encode", "linear11"], one.encode() + b"\n") for one in QUANTITIES]
    found += [(["decode", "direct:3,2,1"], one.encode() + b"\n") for one in CODES]
    found.append((["encode", "vout:17"], b"\n\r\n1\r\n1\r\r\n1\r"))
    found.append((["encode", "vout:17"], b"0" * 255 + b"1\n" + b"0" * 256 + b"\r\n1\n"))
    found.append((["decode", "vout:17"], b"0" * 257))
    found.append((["encode", "-1"], b"1"))
    return found


def field_rows():
    """The examples of docs/meaning.md, each in the ways in which its data may go."""
    found = []
    for name, given, _ in meaning.examples():
        code = profiles.standard(name).code
        ways = [Write((Part(0x58, code, tuple(given[0]), False),)),
                Read(0x58, code, tuple(given[0]), True)]
        if len(given) == 2:
            ways = [Call(0x58, code, tuple(given[0]), tuple(given[1]), False)]
        for way in ways:
            if packets.check(profiles.SAMPLE, way) is None:
                text = packets.events_text(packets.events_of(profiles.SAMPLE, way)).encode()
                found += [([task, "--sample"], text) for task in ("json", "log")]
    return found


def long_rows():
    """Rows at the limits of lists and lines."""
    block = b" 41" * 255
    sixteen = b" +".join(b" %02x 03" % address for address in range(0x10, 0x20))
    legs = b" ".join(b"S %02x A 03 A" % (2 * address) for address in range(0x10, 0x20))
    many = profiles.MANY_TEXT + b"%%\n"
    refused = b"refused 58 99" + b" ff" * 256
    return [
        (["show", "--sample"], b"S b0 A 99 A S b1 A ff" + b" A 41" * 255 + b" N P"),
        (["json", "--sample"], b"S b0 A 99 A S b1 A ff" + b" A 41" * 255 + b" N P"),
        (["json", "--sample"], b"S b0 A 99 A ff" + b" A 41" * 255 + b" A 00 N P"),
        (["log", "--sample"], b"S b0 A 99 A S b1 A ff" + b" A 41" * 255 + b" N P"),
        (["log", "--sample"], b"S b0 A 99 A ff" + b" A 41" * 255 + b" A 00 N P"),
        (["show", "--sample"], b"S b0 A 99 A ff" + b" A 41" * 255 + b" A P"),
        (["build", "--sample"], b"write 58 99" + block + b" pec\n"),
        (["build", "--sample"], b"write 58 99" + block + b" 41\n"),
        (["build", "--sample"], b"write 58 99" + block + b" 4\n"),
        (["build", "--sample"], b"read 58 99 :" + block + b" pec\n"),
        (["build", "--sample"], b"read 58 99 :" + block + b" 41\n"),
        (["build", "--sample"], b"call 58 06" + block + b" :" + block + b"\n"),
        (["build", "--sample"], b"call 58 06" + block + b" 41 :\n"),
        (["build", "--sample"], refused + b"\n"),
        (["build", "--sample"], refused + b" 00\n"),
        (["build", "--sample"], refused + b" 00 00\n"),
        (["build", "--sample"], refused + b" 00 00 00\n"),
        (["build", "--sample"], refused + b" + 59\n"),
        (["build", "--sample"], b"refused 58 99" + block + b" pec + 59\n"),
        (["build", "--sample"], b"refused 58 99" + block + b" 41 pec + 59\n"),
        (["run", "--sample"], b"write 58 99" + block + b"\nread 58 99\n"),
        (["run", "--sample"], b"call 58 06" + block + b"\n"),
        (["run", "--sample"], b"call 58 06" + block + b" 41\n"),
        (["build", "--sample"], b" " * 32768 + b"\n" + b" " * 32769 + b"\nwrite 58 03\n"),
        (["run", "--sample"], b" " * 32767 + b"\r\n" + b" " * 32768 + b"\r\nwrite 58 03\n"),
        (["build"], many + b"write" + sixteen + b"\n"),
        (["build"], many + b"write" + sixteen + b" + 20 03\n"),
        (["build"], many + b"write" + sixteen + b" + zz\n"),
        (["run"], many + b"write" + sixteen + b" + 20 03\n"),
        (["run"], many + b"write" + sixteen + b"\n"),
        (["build"], many + b"refused" + sixteen + b"\n"),
        (["build"], many + b"refused" + sixteen + b" + 20\n"),
        (["build"], many + b"refused" + sixteen[: -len(b" + 1f 03")] + b" + 1f 03 00\n"),
        (["show"], many + legs + b" P"),
        (["json"], many + legs + b" P"),
        (["json"], many + legs + b" S 40 A P"),
        (["log"], many + legs + b" P"),
        (["json"], many + legs[: -len(b"S 3e A 03 A")] + b"S 3e A 04 N P"),
        (["show"], many + legs + b" S 40 A 03 A P"),
        (["show"], many + legs[: -len(b"03 A")] + b"04 N P"),
        (["show"], b" " * 1048575 + b"\n%%\n"),
        (["show"], b" " * 1048576 + b"\n%%\n"),
        (["show"], b" " * 1048577),
    ]


def rows_behind_profiles():
    """Rows with a profile in front, and the whole examples."""
    found = [([task], text) for text in profiles.FAULTS for task in ("show", "run")]
    sample = profiles.SAMPLE_TEXT + b"%%\n"
    odd = profiles.ODD_TEXT + b"%%\r\n"
    found += [(["show"], sample + capture) for capture in lines_of(CAPTURES)[:12]]
    found += [(["build"], sample + line) for line in lines_of(TRANSACTIONS)[:8]]
    for capture in lines_of(ODD_CAPTURES):
        found += [([task], odd + capture) for task in ("show", "check", "json", "log", "stats")]
        found += [([task, "--late"], odd + capture) for task in ("json", "log")]
    found += [(["build"], odd + line) for line in lines_of(ODD_LINES)]
    for requests in lines_of(ODD_REQUESTS):
        found.append((["run"], odd + requests.replace(b"; ", b"\n")))
    unlike = profiles.UNLIKE_TEXT + b"%%\n"
    for capture in lines_of(UNLIKE_CAPTURES):
        found += [([task], unlike + capture) for task in ("show", "check", "json", "log", "stats")]
        for task in ("json", "log"):
            found.append(([task, "--late"], unlike + capture))
            found.append(([task, "--late", "--fixed-vout-mode"], unlike + capture))
    found += [(["build"], unlike + line) for line in lines_of(UNLIKE_LINES)]
    rails, volts = profiles.RAILS_TEXT + b"%%\n", profiles.VOLTS_TEXT + b"%%\n"
    for capture in lines_of(VOLTS_CAPTURES):
        found += [([task], volts + capture) for task in ("show", "json", "log", "stats")]
        found += [([task, "--late"], volts + capture) for task in ("json", "log")]
        found += [(["log", "--digits", "0"], volts + capture), (["stats", "--json"], volts + capture)]
    named = profiles.NAMED_TEXT + b"%%\n"
    for capture in lines_of(NAMED_CAPTURES):
        found += [([task], named + capture) for task in ("show", "json", "log", "stats")]
        found += [(["stats", "--json"], named + capture), (["json", "--late"], named + capture)]
        found.append((["stats", "--fail-on", "faults"], named + capture))
    for front, lists in (
        (unlike, UNLIKE_REQUESTS), (rails, RAILS_REQUESTS), (volts, VOLTS_REQUESTS),
    ):
        for requests in lines_of(lists):
            found.append((["run"], front + requests.replace(b"; ", b"\n")))
    capture = example("profiles/two_rails.txt")
    found += [([task], rails + capture) for task in ("show", "check", "json", "log", "stats")]
    nobody = b"device = []\n%%\n"
    found.append((["show"], nobody + b"S 40 N P S 19 A b0 N P S 40 A P"))
    found.append((["build"], nobody + b"write 58 03\nrefused 58\nalert none\n"))
    for task in ("json", "log"):
        found.append(([task], b"ignore = []\n" + nobody + b"S 40 N P S 40 A P"))
    board = profiles.BOARD_TEXT + b"%%\n" + example("sessions/power_up.txt")
    found += [(["show"], board), (["json"], board), (["json", "--late"], board)]
    found += [(["stats"], board), (["stats", "--json", "--late"], board)]
    found += [(["log"], board), (["log", "--late"], board)]
    found.append((["run"], profiles.BOARD_TEXT + b"%%\n" + example("requests/bring_up.txt")))
    found.append((["show"], profiles.LTC3880_TEXT + b"%%\n" + example("profiles/ltc3880.txt")))
    found.append((["show"], profiles.PFE1100_TEXT + b"%%\n" + example("profiles/pfe1100.txt")))
    bench = profiles.BENCH_TEXT + b"%%\n"
    found.append((["build"], bench + example("transactions/bench_setup.txt")))
    for name in ("tour", "bench_session", "write_word"):
        found.append((["show", "--sample"], example("captures/%s.txt" % name)))
    return found
