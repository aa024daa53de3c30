"""What the programs limit_cases and writer_cases read and print: a case is a byte that names the call and 8-byte numbers after a 4-byte count; a line says what the call answers."""


def case_stream(cases):
    return b"".join(bytes([c[0]]) + (len(c) - 1).to_bytes(4, "big") + b"".join(n.to_bytes(8, "big") for n in c[1:]) for c in cases)


def case_lines(lines, cases):
    answers = [lines[c[0]](*c[1:]) for c in cases]
    return "".join(f"{i + 1} {a}\n" for i, a in enumerate(answers)) + f"end {len(answers)}\n"
