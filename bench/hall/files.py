"""Prints messages that put so many files, beside which a pipeline is queued."""

import sys

for n in range(int(sys.argv[1])):
    text = "- script: a\n"
    print(
        f"PUT /files/other/refs%2Fheads%2Fmain/%2Ff{n}.yml HTTP/1.1\r\nAuthorization: Bearer abc\r\nContent-Length: {len(text)}\r\n\r\n{text}",
        end="",
    )
