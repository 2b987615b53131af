"""What .ci/mutants is made of: mutants, what their verdicts rest on, their records, and the rooms in which they are tried."""
