"""What the tests of this folder share."""
import subprocess


def left_out(what, why):
    print(f"left out: {what}: {why}", flush=True)


def ended(*words, **how):
    """A command that has ended, with what it printed."""
    return subprocess.run(words, **{"capture_output": True, "text": True, "timeout": 1200, **how})
