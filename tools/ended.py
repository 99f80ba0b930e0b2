"""How a tool ends where a file or its output fails: with one line, and no traceback."""
import os
import sys
from pathlib import Path


def run(main):
    """Runs a tool, and ends with what it returns or exits with; 1 and a line where a file or its output failed."""
    try:
        try:
            status = main()
        except SystemExit as ended:
            status = ended.code
        sys.stdout.flush()
    except OSError as error:
        # What is still to be written is dropped: it would fail once more as Python ends.
        os.dup2(os.open(os.devnull, os.O_WRONLY), sys.stdout.fileno())
        status = f"{Path(sys.argv[0]).name}: {error.filename or 'standard output'}: {error.strerror}"
    except KeyboardInterrupt:
        status = 130
    sys.exit(status)
