#!/usr/bin/env python3
"""The examples of docs/ERRORS.md, which are a test of the gate as well.

    tools/examples.py --table           writes the test, crates/ath_report_tests/src/examples.rt
    tools/examples.py --check           is the test that of the document? (status 1 where it isn't)
    tools/examples.py --run PROGRAM     runs each example by PROGRAM, and compares what it prints

An example is a block ```athena, a whole file x.ath, and behind it a block ```report, what the program
prints. In a file `«a × 201»` stands for 201 times `a`, and `\\xHH` for a byte.
"""
import os
import re
import subprocess
import sys
import tempfile

TOP = os.path.dirname(os.path.dirname(os.path.abspath(__file__)))
DOCUMENT = os.path.join(TOP, "docs", "ERRORS.md")
TABLE = os.path.join(TOP, "crates", "ath_report_tests", "src", "examples.rt")
BLOCKS = re.compile(r"^### (.*?)$|^```athena\n(.*?)^```\n```report\n(.*?)^```$", re.M | re.S)
REPEATED = re.compile(r"«(.*?) × (\d+)»")


def examples():
    """The examples in order: heading, parts of the file with how often each stands, report."""
    found, heading = [], ""
    with open(DOCUMENT, encoding="utf-8") as file:
        for block in BLOCKS.finditer(file.read()):
            if block.group(1):
                heading = block.group(1)
                continue
            parts, at = [], 0
            for repeated in REPEATED.finditer(block.group(2)):
                parts.append((block.group(2)[at:repeated.start()], 1))
                parts.append((repeated.group(1), int(repeated.group(2))))
                at = repeated.end()
            parts.append((block.group(2)[at:], 1))
            found.append((heading, [p for p in parts if p[0]], block.group(3)))
    return found


def bytes_of(text):
    return re.sub(rb"\\x([0-9A-F]{2})", lambda byte: bytes([int(byte.group(1), 16)]), text.encode())


def literal(text, mark):
    text = re.sub(r"\\(?!x[0-9A-F]{2})", r"\\\\", text)
    return '%s"%s"' % (mark, text.replace('"', '\\"').replace("\n", "\\n"))


SOURCE = """\
// The examples of docs/ERRORS.md; tools/examples.py writes this file.

use crate::reports::expect_lines;
use ath_session::Status;
use std::alloc::{AllocError, Global};
use std::test::Fail;

/// The text that these parts make.
pub(crate) fn text_of(alloc: Global, parts: &[(&[u8], u64)]) -> Result<Vec<u8>, AllocError> {
    let mut text = Vec::new(alloc);
    for (part, times) in parts {
        for _ in 0..*times {
            text.extend_from_slice(part)?;
        }
    }
    Ok(text)
}

/// Files with what is printed for each.
const EXAMPLES: [(&[u8], &str); %d] = [
%s];

#[test]
fn the_examples_of_errors(rt: HostRuntime) -> Result<(), Fail> {
    for (text, lines) in EXAMPLES {
        expect_lines(&rt, text, lines, Status::Errors)?;
    }
    Ok(())
}

/// The same of files that say a part again and again: the parts, each with how often it stands there.
const LARGE_EXAMPLES: [(&[(&[u8], u64)], &str); %d] = [
%s];

#[test]
fn the_large_examples_of_errors(rt: HostRuntime) -> Result<(), Fail> {
    for (parts, lines) in LARGE_EXAMPLES {
        let text = text_of(rt.alloc(), parts)?;
        expect_lines(&rt, text.as_slice(), lines, Status::Errors)?;
    }
    Ok(())
}
"""


def rows(found, text_of):
    """A row for each example: its heading, its text and its report."""
    return "".join("    // %s\n    (\n%s        %s,\n    ),\n" % (heading, text_of(parts), literal(report, ""))
                   for heading, parts, report in found)


def whole(parts):
    return "        %s,\n" % literal(parts[0][0], "b")


def in_parts(parts):
    return "        &[\n%s        ],\n" % "".join("            (%s, %d),\n" % (literal(text, "b"), times) for text, times in parts)


def table():
    plain = [example for example in examples() if len(example[1]) == 1 and example[1][0][1] == 1]
    other = [example for example in examples() if example not in plain]
    return SOURCE % (len(plain), rows(plain, whole), len(other), rows(other, in_parts))


def run(program):
    bad = 0
    for heading, parts, report in examples():
        with tempfile.TemporaryDirectory() as folder:
            with open(os.path.join(folder, "x.ath"), "wb") as file:
                for text, times in parts:
                    file.write(bytes_of(text) * times)
            answer = subprocess.run([program, "x.ath"], cwd=folder, stdout=subprocess.PIPE)
            if answer.stdout != report.encode() or answer.returncode != 1:
                bad += 1
                print("%s: prints\n%s" % (heading, answer.stdout.decode(errors="replace")[:400]))
    print("%d examples, %d of them wrong" % (len(examples()), bad))
    sys.exit(1 if bad else 0)


def main():
    if sys.argv[1:] == ["--table"]:
        with open(TABLE, "w", encoding="utf-8") as file:
            file.write(table())
    elif sys.argv[1:] == ["--check"]:
        with open(TABLE, encoding="utf-8") as file:
            same = re.sub(r"[\s,]+", "", file.read()) == re.sub(r"[\s,]+", "", table())
        if not same:
            print("crates/ath_report_tests/src/examples.rt: write it again by tools/examples.py --table")
        sys.exit(0 if same else 1)
    elif len(sys.argv) == 3 and sys.argv[1] == "--run":
        run(os.path.abspath(sys.argv[2]))
    else:
        sys.exit(__doc__)


if __name__ == "__main__":
    main()
