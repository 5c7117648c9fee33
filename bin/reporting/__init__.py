"""The parts of bin/report, installed as aclctl-report, and what other scripts share with it."""
