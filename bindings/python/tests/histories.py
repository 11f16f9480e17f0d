"""Tries random histories with their seeds, in one process: python3 -m tests.histories FIRST COUNT. It tells how many were wrong, and how long it took."""
import sys
import time

from tests.wandering import try_histories


def main():
    first, count = map(int, sys.argv[1:])
    begin = time.monotonic()

    def tell(done):
        if done % 20000 == 0 and done:
            print(f"{done} histories in {time.monotonic() - begin:.0f} s, {time.process_time():.0f} s of processor time", flush=True)

    wrong = try_histories(first, count, tell)
    for seed, fault in wrong:
        print(f"seed {seed}: {fault!r:.2000}")
    print(f"{count} histories, seeds {first} to {first + count - 1}: {len(wrong)} wrong, {time.monotonic() - begin:.0f} s, {time.process_time():.0f} s of processor time")
    return 1 if wrong else 0


if __name__ == "__main__":
    sys.exit(main())
