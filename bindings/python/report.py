"""Prints what the receipts of the second file make a replica of the configuration in the first one accept."""
import sys
from pathlib import Path

from fedbundle import Refused, Replica

config, lines = (Path(name).read_bytes() for name in sys.argv[1:3])
with Replica(config) as replica:
    for line in lines.splitlines():
        try:
            replica.take(line)
        except Refused as refused:
            print(refused.number, refused.text, file=sys.stderr)  # -501 G1 UnknownDomain
    sys.stdout.buffer.write(replica.report())
