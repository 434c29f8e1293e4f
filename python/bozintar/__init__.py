"""The library of the programs, trials and tools around lnsd.

What plays devices and gateways and speaks with the server (`aes`, `frames`, `devices`, `meters`,
`forwarders`, `network`, `wire`, `links`) is written from the standards and docs/FORMATS.md alone:
it shares no line with the server. It needs Python's standard library alone; `mqtt`, `broker` and
`counts` need packages of Debian."""

import sys

if sys.version_info < (3, 10):
    sys.exit("Python 3.10 or later is needed")
