#!/usr/bin/env python3
"""receiver.py FILE: builds bench/receiving.txt over the library as FILE, the model of a receiver's buffers beside a stream and its
units, for examples/any-stream/run.sh."""

import shutil
import sys
import tempfile
from pathlib import Path

from common import built

with tempfile.TemporaryDirectory() as scratch:
    shutil.copy(built(Path(scratch), "receiving", ["tstd", "description", "pes_packet", "ts_packet", "arrayvec"]), sys.argv[1])
