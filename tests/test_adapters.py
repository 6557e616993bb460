#!/usr/bin/env python3
"""Test the adapters to an interface, with stand-in commands, interfaces that a thread plays, and no dali_bench.

The last line is `N passed, M failed`, and the status is 0 only where none failed.
"""

import sys

sys.dont_write_bytecode = True

import adapter_desk  # noqa: E402

if __name__ == "__main__":
    sys.exit(adapter_desk.main("adapter_serial", "adapter_daliserver", "adapter_python_dali"))
