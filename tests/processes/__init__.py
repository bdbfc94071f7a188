"""The built program by real processes, by topic. Each module's `tests` gives its tests, by name; tests/program.py runs them."""
