"""What tests/vectors, tests/guide and tests/library share: the program, the library through library/rust/examples/handover.rs,
policies.rs and join.rs, C programs, and the tables."""

import pathlib
import re
import subprocess
import sys
import tempfile

ROOT = pathlib.Path(__file__).resolve().parent.parent
GATE = ROOT / "crates/gate/out/gate"
ARCHIVE = ROOT / "crates/pitch_gate/out/libpitch_gate.a"
EXAMPLES = ROOT / "library/rust/target/debug/examples"
STRICT = "-Wall -Wextra -Wpedantic -Werror -I library/include".split()

FAMILIES = """before max-users max-roles max-permissions max-active apart apart-active needs during at two-hands
              same-hand""".split()


def build_examples():
    run(["cargo", "build", "-q", "--offline", "--examples", "--manifest-path", "library/rust/Cargo.toml"])


def compile_c(source, program, *flags):
    run(["cc", *STRICT, "-std=c11", *flags, source, str(ARCHIVE), "-o", program])


def run(command):
    if subprocess.run(command, cwd=ROOT, stdin=subprocess.DEVNULL).returncode != 0:
        sys.exit(f"failed: {' '.join(command)}")


def respond(text):
    """What the program prints for an input that it reads to its end."""
    ran = subprocess.run([GATE], input=text, capture_output=True)
    if ran.returncode != 0:
        sys.exit(f"gate ended with {ran.returncode}: {ran.stderr.decode()}")
    return ran.stdout.decode()


def hand_over(rules, state, steps, spaces):
    """What handover prints, and the new state that it writes, if it does."""
    with tempfile.TemporaryDirectory() as folder:
        files = [pathlib.Path(folder) / name for name in ("rules", "state", "steps", "next")]
        for file, text in zip(files, (rules, state, steps)):
            file.write_bytes(text)
        shown = run_example("handover", *files, *spaces)
        return shown, files[3].read_text() if files[3].exists() else None


def turn(journey, text, spaces):
    """What policies prints of a text, by its journey to-rules or from-rules."""
    with tempfile.NamedTemporaryFile() as file:
        file.write(text)
        file.flush()
        return run_example("policies", journey, file.name, *spaces)


def join(first, second, spaces):
    """What join prints of two rule lists."""
    with tempfile.TemporaryDirectory() as folder:
        files = [pathlib.Path(folder) / name for name in ("first", "second")]
        for file, text in zip(files, (first, second)):
            file.write_bytes(text)
        return run_example("join", *files, *spaces)


def run_example(name, *arguments):
    """What an example prints, whether it refuses its texts or not."""
    ran = subprocess.run([EXAMPLES / name, *arguments], capture_output=True)
    if ran.returncode not in (0, 1):
        sys.exit(f"{name} ended with {ran.returncode}: {ran.stderr.decode()}")
    return ran.stdout.decode()


def numbers():
    """The refusal numbers of library/include/pitch_gate.h."""
    header = (ROOT / "library/include/pitch_gate.h").read_text()
    return re.findall(r"^    PITCH_GATE_\w+ = (\d\d),? +/\*", header, re.MULTILINE)
