"""Writes 250 types of 32 sites, and for each of them four rules whose eight agents mention one site each."""

for number in range(250):
    print(f"%agent: T{number}({','.join(f's{site}' for site in range(32))})")
    for first in range(0, 32, 8):
        print(",".join(f"T{number}(s{site}[.])" for site in range(first, first + 8)))
